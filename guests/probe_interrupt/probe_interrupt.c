/* Three probes that raise interrupts, of which the last one may not. Hart 0 takes them at its handler. */

#include "tv.h"

/* The bit of mie that lets interrupts of devices in, and the bit of mstatus that lets in any. */
enum { EXTERNAL = 1 << 11, ALL = 1 << 3 };

/* What mcause holds where one was taken. */
#define EXTERNAL_INTERRUPT (1UL << 63 | 11)

/* The source that was claimed last, 0 for none yet. */
static volatile unsigned int claimed;

/* Claims a source and completes it. Another trap is a failure. */
__attribute__((interrupt("machine"))) static void take_trap(void)
{
    unsigned long cause = READ_CSR(mcause);
    if (cause != EXTERNAL_INTERRUPT)
        tv_fail((unsigned short)(256 + cause));
    unsigned int source = *tv_claim(0);
    *tv_claim(0) = source;
    claimed = source;
}

/* Has the probe in a slot raise its interrupt, and tells the source that came. */
static void raise(unsigned long slot)
{
    claimed = 0;
    tv_probe(slot)->go = TV_PROBE_RAISE;
    while (claimed == 0) {
    }
    tv_put_text("interrupt of source ");
    tv_put_byte((char)('0' + claimed));
    tv_put_byte('\n');
}

int main(void)
{
    WRITE_CSR(mtvec, take_trap);
    WRITE_CSR(mie, EXTERNAL);
    SET_CSR(mstatus, ALL);
    for (unsigned int source = 1; source <= 3; source++)
        *tv_priority(source) = 1;
    *tv_enable(0) = 1 << 1 | 1 << 2 | 1 << 3;
    raise(0);
    raise(1);
    raise(0);
    tv_probe(2)->go = TV_PROBE_RAISE;
    tv_put_text(tv_probe(2)->result == 2 ? "no interrupt of source 3\n" : "?\n");
    return 0;
}
