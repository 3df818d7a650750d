/* As much of the C library's header as hosts built by the gate need: the kit's compiler brings none. */
typedef __UINT8_TYPE__ uint8_t;
typedef __UINT16_TYPE__ uint16_t;
typedef __UINT32_TYPE__ uint32_t;
typedef __UINT64_TYPE__ uint64_t;
#define UINT16_MAX 65535
#define UINT64_MAX __UINT64_MAX__
#define SIZE_MAX __SIZE_MAX__
