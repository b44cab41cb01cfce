# Where a guest in C begins: its first instruction lies at the start of memory.
#
# Each hart of a machine starts here. x10 (a0) holds the hart's number, as the register mhartid does, and all other
# registers are 0. `tv flat` has one hart, number 0. Hart 0 takes the top of memory for its stack and calls main; any
# other hart waits below without end. To use the others, copy this file into the folder of your guest and change it: a
# `_start` that stands there is taken in place of this one. Give each hart a stack of its own before it calls C.
#
# Nothing is cleared: memory behind the image is 0, so .bss is as C wants it. gp isn't set, since nothing uses it
# (-mno-relax). Where main returns 0 the machine is switched off. Where it returns another number, its low 16 bits are
# the code of a failure. A trap before the guest has set mtvec to a handler of its own is a failure with the code
# 256 + mcause.

        .section .text.start, "ax"
        .globl  _start
_start:
        bne     a0, zero, others
        la      sp, stack_top           # the linker script names it
        la      t0, stray
        csrw    mtvec, t0
        call    main
        beq     a0, zero, off
failed:
        slli    a0, a0, 16              # the code is the high half of the word
        li      t1, 0x3333
        or      t1, a0, t1
        j       finish
off:
        li      t1, 0x5555
finish:
        lui     t0, 0x100               # t0 = 0x0010_0000, the finisher
        sw      t1, 0(t0)
others:
        wfi                             # a hint; it may go on at once
        j       others

        .balign 4
stray:
        csrr    a0, mcause
        addi    a0, a0, 256
        j       failed
