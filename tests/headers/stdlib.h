/* As much of the C library's header as hosts built by the gate need: the kit's compiler brings none. */
#include <stddef.h>
void *calloc(size_t count, size_t size);
void free(void *room);
void exit(int status);
