# The start: a stack, a trap vector, main, and its status to the test device of the machine virt, which ends QEMU.
    .section .text.start, "ax"
    .globl _start
_start:
    la sp, stack_top
    la t0, trap
    csrw mtvec, t0
    call main
finish:
    li t0, 0x5555           # status 0
    beqz a0, 1f
    slli a0, a0, 16         # or another one in the upper half
    li t0, 0x3333
    or t0, t0, a0
1:  li t1, 0x100000
    sw t0, 0(t1)
2:  j 2b

# Whatever traps here ends the run with status 99. A matrix word comes here on a machine that has no matrix unit.
    .balign 4
    .globl trap
trap:
    li a0, 99
    j finish
