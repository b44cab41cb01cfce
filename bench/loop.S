# A loop without end that loads, computes, stores and branches. A run ends at its limit of events.

        .globl  _start
_start:
        lui     s0, 0x80010             # s0 = 0xffff_ffff_8001_0000
        slli    s0, s0, 32
        srli    s0, s0, 32              # s0 = 0x8001_0000, a place in memory
        addi    s1, zero, 1
loop:
        ld      t0, 0(s0)
        addi    t0, t0, 3
        xor     t1, t0, s1
        slli    t2, t1, 7
        sd      t2, 8(s0)
        sd      t0, 0(s0)
        add     s1, s1, t2
        sltu    t3, s1, t0
        lw      t4, 12(s0)
        addw    t5, t4, t3
        bne     s0, zero, loop
