// The routine of old.s in another order, with the operands of sqadd exchanged, and with sqneg and sqadd for sqsub.
    sqneg   v6.4s, v2.4s
    sqadd   v5.4s, v1.4s, v6.4s
    sqadd   v4.8h, v2.8h, v1.8h
    uabd    v3.16b, v1.16b, v2.16b
    cnt     v3.16b, v3.16b
