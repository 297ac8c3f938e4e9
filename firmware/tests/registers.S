# Every x and f register and fcsr but rd are as they were behind a matrix word, and rd has its value: status 11, else 1. Here msettilemi x15, 4,
# between compressed instructions. As a Linux program and on bare metal.
    .globl main
main:
    addi sp, sp, -256
    .irp r, 1,3,4,8,9,18,19,20,21,22,23,24,25,26,27
    sd x\r, 8*\r(sp)
    .endr
    .word 0x00047077       # msettypei x0, e8, accq
    .irp r, 1,5,6,7,8,9,10,11,12,13,14,16,17,18,19,20,21,22,23,24,25,26,27,28,29,30,31
    li x\r, 0x1111111111111 * \r
    .endr
    .irp r, 0,1,2,3,4,5,6,7,8,9,10,11,12,13,14,15,16,17,18,19,20,21,22,23,24,25,26,27,28,29,30,31
    li x15, 0x2222222222222 * (\r + 1)
    fmv.d.x f\r, x15
    .endr
    li x15, 0x65
    fscsr x15
    mv x15, x0
    sd gp, 232(sp)
    sd tp, 240(sp)
    .option rvc
    c.nop
    .word 0x200277f7       # msettilemi x15, 4
    c.nop
    .option norvc
    .irp r, 1,5,6,7,8,9,10,11,12,13,14,16,17,18,19,20,21,22,23,24,25,26,27,28,29,30,31
    sd x10, 248(sp)
    .if \r != 10
    li x10, 0x1111111111111 * \r
    bne x10, x\r, bad
    .endif
    ld x10, 248(sp)
    .endr
    li x5, 0x1111111111111 * 10
    bne x10, x5, bad
    ld x5, 232(sp)
    bne x5, gp, bad
    ld x5, 240(sp)
    bne x5, tp, bad
    .irp r, 0,1,2,3,4,5,6,7,8,9,10,11,12,13,14,15,16,17,18,19,20,21,22,23,24,25,26,27,28,29,30,31
    li x5, 0x2222222222222 * (\r + 1)
    fmv.x.d x6, f\r
    bne x5, x6, bad
    .endr
    frcsr x6
    li x5, 0x65
    bne x5, x6, bad
    li x5, 4
    bne x15, x5, bad
    li a0, 11
    j end
bad:
    li a0, 1
end:
    .irp r, 1,3,4,8,9,18,19,20,21,22,23,24,25,26,27
    ld x\r, 8*\r(sp)
    .endr
    addi sp, sp, 256
    ret
