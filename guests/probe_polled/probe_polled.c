/* Drives a probe by asking for its result. The probe may touch the second half of memory alone. */

#include "tv.h"

/* A page that the probe may touch, and one that it may not. */
#define GRANTED 0x80090000UL
#define OTHER 0x80070000UL

/* Starts an action and waits for its result. */
static unsigned int act(unsigned int action, unsigned long addr, unsigned int len)
{
    struct tv_probe *probe = tv_probe(0);
    probe->addr = addr;
    probe->len = len;
    probe->go = action;
    unsigned int result;
    do {
        result = probe->result;
    } while (result == 0);
    return result;
}

/* Tells an action and what it came to. */
static void tell(const char *action, unsigned int result)
{
    tv_put_text(action);
    tv_put_text(result == 1 ? ": done\n" : ": refused\n");
}

/* Tells how a value is read as eight hexadecimal digits. */
static void tell_value(unsigned long value)
{
    for (int shift = 28; shift >= 0; shift -= 4)
        tv_put_byte("0123456789abcdef"[value >> shift & 15]);
    tv_put_byte('\n');
}

int main(void)
{
    struct tv_probe *probe = tv_probe(0);
    volatile unsigned int *cell = (volatile unsigned int *)GRANTED;
    probe->data = 0x12345678;
    tell("write", act(TV_PROBE_WRITE, GRANTED, 4));
    tell_value(*cell);
    *cell = 0xcafe;
    tell("read", act(TV_PROBE_READ, GRANTED, 4));
    tell_value(probe->data);
    tell("read of nine bytes", act(TV_PROBE_READ, GRANTED, 9));
    tell("write elsewhere", act(TV_PROBE_WRITE, OTHER, 4));
    tell("write across the end", act(TV_PROBE_WRITE, 0x800ffffeUL, 4));
    tell("release", act(TV_PROBE_RELEASE, GRANTED, 4));
    tell_value(*cell);
    tell("read of a released page", act(TV_PROBE_READ, GRANTED, 4));
    tell("regain", act(TV_PROBE_REGAIN, GRANTED, 4));
    tell("read", act(TV_PROBE_READ, GRANTED, 4));
    tell_value(probe->data);
    tell_value(probe->count);
    return 0;
}
