# Puts the byte `A` to the debug port and switches the machine off.
#
# The debug port is the byte at 0x1000_0000. The finisher is the 4 bytes at 0x0010_0000; 0x5555 there switches off.

        .globl  _start
_start:
        lui     t0, 0x10000             # t0 = 0x1000_0000, the debug port
        addi    t1, zero, 0x41          # t1 = 'A'
        sb      t1, 0(t0)               # the port takes one byte
        lui     t0, 0x100               # t0 = 0x0010_0000, the finisher
        lui     t1, 0x5                 # t1 = 0x5000
        addi    t1, t1, 0x555           # t1 = 0x5555
        sw      t1, 0(t0)               # off
