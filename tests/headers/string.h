/* As much of the C library's header as hosts built by the gate need: the kit's compiler brings none. */
int strcmp(const char *left, const char *right);
char *strerror(int number);
