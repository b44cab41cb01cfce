# A loop without end that stores to a register of the probe in slot 0 and loads it again: two accesses in four instructions.

        .globl  _start
_start:
        lui     s0, 0x10001             # s0 = 0x1000_1000, the registers of slot 0
loop:
        sd      t0, 0x10(s0)            # DATA
        ld      t1, 0x10(s0)
        addi    t0, t1, 1
        jal     zero, loop
