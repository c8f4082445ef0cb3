// The kit has a C compiler and a C library but no headers: what the programs of host/ need of <stdint.h>.
typedef __UINT8_TYPE__ uint8_t;
typedef __UINT16_TYPE__ uint16_t;
typedef __UINT32_TYPE__ uint32_t;
typedef __UINT64_TYPE__ uint64_t;
#define UINT64_C(n) n##ul
