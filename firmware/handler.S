# User mode: the handler of SIGILL that is put into the program before its first instruction. It hands its ucontext to the plugin by a system
# call that Linux does not have, with the address of this code so that no other call is taken for it. The plugin answers in uc_link.
    .option norvc
    .option norelax
    .globl handler
handler:
    auipc a3, 0
    mv a0, a2
    li a7, 0xb0d1
    ecall
    ld t1, 8(a2)            # uc_link, 0: the word is carried out; 1: none of the unit's words, and the program has no handler;
    beqz t1, done           # else the program's own handler
    sd x0, 8(a2)
    li a0, 4                # SIGILL
    li t2, 1
    beq t1, t2, default
    jr t1
default:                    # back to the word, with the default action
    lla a1, action
    li a2, 0
    li a3, 8
    li a7, 134              # rt_sigaction
    ecall
done:
    ret
    .balign 8
action:
    .dword 0, 0, 0
