// Two functions, for a shared library and for a program.
    .text
    .globl first
    .type first, %function
first:
    sqadd   v0.8h, v0.8h, v1.8h
    ret
    .size first, . - first
    .globl second
    .type second, %function
second:
    sqsub   v0.4s, v0.4s, v1.4s
    ret
    .size second, . - second
