/* Two harts and their interrupts. Hart 0 waits for its timer and then sends hart 1 a software interrupt, which hart 1
   answers by another one. Each tells what it took, and hart 0 switches off. */

#include "tv.h"

/* The bits of mie that let interrupts in, and the bit of mstatus that lets in any. */
enum { SOFTWARE = 1 << 3, TIMER = 1 << 7, ALL = 1 << 3 };

/* What mcause holds where an interrupt was taken. */
#define SOFTWARE_INTERRUPT (1UL << 63 | 3)
#define TIMER_INTERRUPT (1UL << 63 | 7)

/* Whether a hart took an interrupt of its timer, and one that the other hart sent. */
static volatile int timed[2], called[2];

/* Takes an interrupt: makes it go away, and tells the code that waits for it. Another trap is a failure. */
__attribute__((interrupt("machine"))) static void take_trap(void)
{
    unsigned long hart = READ_CSR(mhartid);
    unsigned long cause = READ_CSR(mcause);
    if (cause == TIMER_INTERRUPT) {
        *tv_mtimecmp(hart) = ~0UL;
        timed[hart] = 1;
    } else if (cause == SOFTWARE_INTERRUPT) {
        *tv_msip(hart) = 0;
        called[hart] = 1;
    } else {
        tv_fail((unsigned short)(256 + cause));
    }
}

/* Waits until an interrupt was taken. */
static void wait_for(const volatile int *taken)
{
    while (*taken == 0) {
    }
}

static void run_first(void)
{
    *tv_mtimecmp(0) = tv_mtime() + 100;
    wait_for(&timed[0]);
    tv_put_text("hart 0: timer interrupt\n");
    *tv_msip(1) = 1;
    wait_for(&called[0]);
    tv_put_text("hart 0: software interrupt from hart 1\n");
    tv_off();
}

static void run_second(void)
{
    wait_for(&called[1]);
    tv_put_text("hart 1: software interrupt from hart 0\n");
    *tv_msip(0) = 1;
}

/* What each hart does, by its number. Hart 1 comes back. */
void run(unsigned long hart)
{
    WRITE_CSR(mtvec, take_trap);
    WRITE_CSR(mie, SOFTWARE | TIMER);
    SET_CSR(mstatus, ALL);
    if (hart == 0)
        run_first();
    else
        run_second();
}
