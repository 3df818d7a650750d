/* As much of the C library's header as hosts built by the gate need: the kit's compiler brings none. */
#include <stddef.h>
typedef long ssize_t;
ssize_t read(int file, void *bytes, size_t length);
ssize_t write(int file, const void *bytes, size_t length);
