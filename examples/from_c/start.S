# Where every hart starts, with 0 in sp.
    .section .text.start
    .globl _start
    .type _start, @function
_start:
    li a7, 2            # service 2: a0 becomes this hart's number
    ecall
    la sp, __stacks     # a stack of 1 KiB for each hart
    addi a0, a0, 1
    slli a0, a0, 10
    add sp, sp, a0
    call main
    li a7, 0            # service 0: this hart is halted
    ecall
