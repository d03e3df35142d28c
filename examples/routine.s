// A row of pixels, blended with the row before it. Made into examples/routine.bin by
//     aarch64-linux-gnu-as -o routine.o examples/routine.s
//     aarch64-linux-gnu-objcopy -O binary -j .text routine.o examples/routine.bin
    uabd     v2.16b, v0.16b, v1.16b
    uqadd    v3.16b, v0.16b, v2.16b
    urshr    v3.16b, v3.16b, #1
    sli      v3.16b, v2.16b, #4
    uqshrn   v4.8b, v3.8h, #4
    uqshrn2  v4.16b, v2.8h, #4
    sqdmull  v5.4s, v3.4h, v1.h[3]
    sqrdmulh v6.8h, v4.8h, v2.8h
    cnt      v7.16b, v4.16b
