/* What the programs in C share: words, memory and device words as the source language has them. */
#include <stdint.h>

typedef uint32_t u32;
typedef int32_t i32;
typedef uint8_t u8;
typedef struct { u32 first, second; } two;      /* two results, in a0 and a1 */

#define LOAD1(a) ((u32)*(uint8_t *)(a))
#define LOAD2(a) ((u32)*(uint16_t *)(a))
#define LOAD4(a) (*(u32 *)(a))
#define STORE1(a, v) (*(uint8_t *)(a) = (uint8_t)(v))
#define STORE2(a, v) (*(uint16_t *)(a) = (uint16_t)(v))
#define STORE4(a, v) (*(u32 *)(a) = (v))
#define DEVICE(a) (*(volatile u32 *)(a))
