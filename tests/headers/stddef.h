/* As much of the C library's header as hosts built by the gate need: the kit's compiler brings none. */
typedef __SIZE_TYPE__ size_t;
#define NULL ((void *)0)
