/* As much of the C library's header as hosts built by the gate need: the kit's compiler brings none. */
int *__errno_location(void);
#define errno (*__errno_location())
