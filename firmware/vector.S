# Bare metal: what the plugin puts into the program's memory: the trap vector that stands before the program's own. Its frame of numbers lies in a page
# without code, as a store into one with code would be slow. The plugin replaces what is marked so.
# sscratch is used, which a program that runs in machine mode only has no use for.
    .option norvc
    .option norelax
    .globl vector, trap, bell, own, detour, detour_bell, back, frame

# A table of 64 jumps, which the plugin writes: exceptions, and in direct mode every trap, come to its first entry, which goes to trap; in vectored
# mode interrupt i comes to entry i, which goes to the same entry of the program's own.
vector:
    .space 256

# x1 .. x31 go to the frame; the store on which the plugin waits, the bell, is into the place of x0. If the trap is that of a matrix word, the plugin
# then has written rd into the frame, and the next pc there. Each access of a csr costs, so mcause and mepc are not read.
trap:
    csrw sscratch, sp
    lla sp, frame           # replaced: where the frame is
    .irp r, 1,3,4,5,6,7,8,9,10,11,12,13,14,15,16,17,18,19,20,21,22,23,24,25,26,27,28,29,30,31
    sd x\r, 8*\r(sp)
    .endr
    csrr t0, sscratch
    sd t0, 16(sp)
bell:
    sd x0, 0(sp)
    ld t0, 0(sp)
    beqz t0, other
    csrw mepc, t0
    .irp r, 1,3,4,5,6,7,8,9,10,11,12,13,14,15,16,17,18,19,20,21,22,23,24,25,26,27,28,29,30,31
    ld x\r, 8*\r(sp)
    .endr
    ld sp, 16(sp)
    mret
other:
    ld t0, 40(sp)
    ld sp, 16(sp)
own:
    j .                     # replaced: to the program's own vector; without one the machine stays here

# Comes in place of the program's first instruction, and of the one behind each that sets mtvec: the plugin is given the program's vector, and gives
# what mtvec becomes; then the instruction is put back.
detour:
    csrw sscratch, sp
    lla sp, frame           # replaced
    sd t0, 40(sp)
    sd t1, 48(sp)
    csrr t0, mtvec
detour_bell:
    sd t0, 256(sp)
    ld t0, 256(sp)
    csrw mtvec, t0
    ld t0, 264(sp)          # where the instruction stood
    lw t1, 272(sp)          # and which
    sw t1, 0(t0)
    fence.i
    ld t0, 40(sp)
    ld t1, 48(sp)
    csrr sp, sscratch
back:
    j .                     # replaced: to the instruction
frame:
