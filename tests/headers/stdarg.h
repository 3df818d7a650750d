/* As much of the C library's header as hosts built by the gate need: the kit's compiler brings none. */
typedef __builtin_va_list va_list;
#define va_start(values, last) __builtin_va_start(values, last)
#define va_end(values) __builtin_va_end(values)
