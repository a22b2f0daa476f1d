    .section .text.start
    .globl _start
_start:
    call main
    li a7, 0        # service 0: this hart is halted
    ecall
