#ifndef STD_STDINT_H
#define STD_STDINT_H
typedef __UINT8_TYPE__ uint8_t;
typedef __UINT32_TYPE__ uint32_t;
#define UINT32_MAX 4294967295u
#endif
