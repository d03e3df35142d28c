/* Three functions; distance and minus are written in two ways. The objects of README's example of neon-prove are made by
 *     aarch64-linux-gnu-gcc -O2 -fno-ident -c -o examples/old.o examples/routines.c
 *     clang --target=aarch64-linux-gnu -O2 -fno-ident -DNEW -c -o examples/new.o examples/routines.c */
#include <arm_neon.h>

uint8x16_t bits(uint8x16_t a, uint8x16_t b) { return vqaddq_u8(vcntq_u8(a), vclzq_u8(b)); }

#ifndef NEW
uint8x16_t distance(uint8x16_t a, uint8x16_t b) { return vabdq_u8(a, b); }
int32x4_t minus(int32x4_t a, int32x4_t b) { return vqsubq_s32(a, b); }
#else
uint8x16_t distance(uint8x16_t a, uint8x16_t b) { return vqaddq_u8(vqsubq_u8(a, b), vqsubq_u8(b, a)); }
int32x4_t minus(int32x4_t a, int32x4_t b) { return vqaddq_s32(a, vqnegq_s32(b)); }
#endif
