# Where a guest starts, how it turns its power off, and where its traps come in.
    .section .text.start, "ax"
    .globl _start
_start:
    la sp, stack_end
    la tp, tls_start            # where picolibc has its errno
    la t0, trap_entry
    csrw mtvec, t0              # its lowest bits are 0: all traps come in there
    call main
    .globl power_off
power_off:
    li t0, 0x100000             # the power register
    li t1, 0x5555               # the word that turns the power off
    sw t1, 0(t0)
off:
    j off                       # nothing comes here once the power is off

# What a C function may change.
    .macro each_saved action
    \action ra, 0(sp)
    \action t0, 4(sp)
    \action t1, 8(sp)
    \action t2, 12(sp)
    \action t3, 16(sp)
    \action t4, 20(sp)
    \action t5, 24(sp)
    \action t6, 28(sp)
    \action a0, 32(sp)
    \action a1, 36(sp)
    \action a2, 40(sp)
    \action a3, 44(sp)
    \action a4, 48(sp)
    \action a5, 52(sp)
    \action a6, 56(sp)
    \action a7, 60(sp)
    .endm

# Calls trap(mcause, mepc, mtval) on the stack of the guest, and goes on at the address that it answers (privileged manual, "mtvec").
    .section .text.trap_entry, "ax"
    .balign 4
trap_entry:
    addi sp, sp, -64
    each_saved sw
    csrr a0, mcause
    csrr a1, mepc
    csrr a2, mtval
    call trap
    csrw mepc, a0
    each_saved lw
    addi sp, sp, 64
    mret
