// Functions as compilers frame them. new.s has the same names.
    .macro begin name
    .globl \name
    .type \name, %function
\name:
    .endm
    .macro end name
    .size \name, . - \name
    .endm
    .text
    begin framed            // bti, paciasp, nop and autiasp are not counted
    bti     c
    paciasp
    nop
    sqadd   v0.8h, v0.8h, v1.8h
    autiasp
    ret
    nop
    end framed
    begin nothing           // the compiler removed everything
    ret
    end nothing
    begin differs           // in one lane of the result
    sqsub   v0.4s, v0.4s, v1.4s
    ret
    end differs
    begin half              // equal in d0, not in v0
    uqadd   v0.8b, v0.8b, v1.8b
    ret
    end half
    begin temporaries       // v2 and v16 do not count
    uabd    v2.16b, v0.16b, v1.16b
    cnt     v0.16b, v2.16b
    ret
    end temporaries
    begin clobbers          // d8 has to be kept
    uqadd   v8.16b, v0.16b, v1.16b
    ushr    v0.2d, v8.2d, #1
    ret
    end clobbers
    begin upper             // the upper half of v8 need not be kept
    shl     v0.2d, v0.2d, #3
    ret
    end upper
    begin loop              // a loop's body from 0x4 to 0xc
    mov     w1, #4
1:  sqadd   v0.8h, v0.8h, v1.8h
    uhadd   v2.8h, v0.8h, v1.8h
    subs    w1, w1, #1
    b.ne    1b
    ret
    end loop
    begin memory            // loads, a relocation and a call
    adrp    x0, table
    ldr     q1, [x0, :lo12:table]
    sqadd   v0.8h, v0.8h, v1.8h
    movi    v1.4s, #31
    bl      elsewhere
    ret
    end memory
    begin literal           // data inside the function
    sqadd   v0.8h, v0.8h, v1.8h
    ret
    .word   0x4e610c00
    end literal
    begin twice             // code after ret
    sqadd   v0.8h, v0.8h, v1.8h
    ret
    sqadd   v0.8h, v0.8h, v1.8h
    ret
    end twice
    begin falls             // no ret
    sqadd   v0.8h, v0.8h, v1.8h
    end falls
    begin endless           // no size
    sqadd   v0.8h, v0.8h, v1.8h
    ret
    .section .rodata
    .p2align 4
table:
    .zero   16
