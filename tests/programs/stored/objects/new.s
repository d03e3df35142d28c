// The functions of old.s, as another compiler might give them.
    .macro begin name
    .globl \name
    .type \name, %function
\name:
    .endm
    .macro end name
    .size \name, . - \name
    .endm
    .text
    begin framed
    sqadd   v0.8h, v0.8h, v1.8h
    retaa
    end framed
    begin nothing
    ret
    end nothing
    begin differs
    sqneg   v2.4s, v1.4s
    sqadd   v0.4s, v0.4s, v2.4s
    ret
    end differs
    begin half
    uqadd   v0.16b, v0.16b, v1.16b
    ret
    end half
    begin temporaries
    uabd    v16.16b, v0.16b, v1.16b
    cnt     v0.16b, v16.16b
    ret
    end temporaries
    begin clobbers
    uqadd   v2.16b, v0.16b, v1.16b
    ushr    v0.2d, v2.2d, #1
    ret
    end clobbers
    begin upper
    sqxtn2  v8.16b, v1.8h
    shl     v0.2d, v0.2d, #3
    ret
    end upper
    begin loop
    mov     w1, #4
    nop
1:  sqadd   v0.8h, v1.8h, v0.8h
    uhadd   v2.8h, v0.8h, v1.8h
    subs    w1, w1, #1
    b.ne    1b
    ret
    end loop
    begin memory
    sqadd   v0.8h, v0.8h, v1.8h
    ret
    end memory
    begin literal
    sqadd   v0.8h, v0.8h, v1.8h
    ret
    end literal
    begin twice
    sqadd   v0.8h, v0.8h, v1.8h
    ret
    end twice
    begin falls
    sqadd   v0.8h, v0.8h, v1.8h
    ret
    end falls
    begin endless
    sqadd   v0.8h, v0.8h, v1.8h
    ret
    end endless
    begin added
    ret
    end added
