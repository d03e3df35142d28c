// A routine as one compiler gives it; new.s is what another gives. Made into examples/old.bin, and new.s into new.bin, by
//     aarch64-linux-gnu-as -o old.o examples/old.s
//     aarch64-linux-gnu-objcopy -O binary -j .text old.o examples/old.bin
    uabd    v3.16b, v1.16b, v2.16b
    cnt     v3.16b, v3.16b
    sqadd   v4.8h, v1.8h, v2.8h
    sqsub   v5.4s, v1.4s, v2.4s
