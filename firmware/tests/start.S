# Bare metal: a stack, the floating point unit on, main, and its status to the test device. What traps without a vector of its own, or to this one,
# ends with status 99; with -DNO_VECTOR none is set.
    .section .text.start, "ax"
    .globl _start, finish, fail
_start:
    la sp, stack_top
    li t0, 0x6000
    csrs mstatus, t0
#ifndef NO_VECTOR
    la t0, fail
    csrw mtvec, t0
#endif
    call main
finish:
    li t0, 0x5555
    beqz a0, 1f
    slli a0, a0, 16
    li t0, 0x3333
    or t0, t0, a0
1:  li t1, 0x100000
    sw t0, 0(t1)
2:  j 2b
    .balign 4
fail:
    li a0, 99
    j finish
