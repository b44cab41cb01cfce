# Where each hart begins, with its number in a0. The stack of hart 0 begins at the top of memory, and that of each
# further one 64 KiB lower. The hart calls run with its number, and waits where that returns.

        .section .text.start, "ax"
        .globl  _start
_start:
        la      sp, stack_top           # the linker script names it
        slli    t0, a0, 16
        sub     sp, sp, t0
        call    run
wait:
        wfi
        j       wait
