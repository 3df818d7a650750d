/* As much of the C library's header as hosts built by the gate need: the kit's compiler brings none. */
#define SIGPIPE 13
#define SIG_IGN ((void (*)(int))1)
void (*signal(int number, void (*handler)(int)))(int);
