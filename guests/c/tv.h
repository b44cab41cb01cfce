/* The ports of the machine, for guests in C. */

#ifndef TV_H
#define TV_H

/* Puts one byte to the standard output of tv: a store of one byte to the debug port. */
static inline void tv_put_byte(char byte)
{
    *(volatile unsigned char *)0x10000000UL = (unsigned char)byte;
}

/* Puts the bytes of a text up to its end. */
static inline void tv_put_text(const char *text)
{
    while (*text != 0)
        tv_put_byte(*text++);
}

/* Stores a word to the finisher. The machine ends with this store; the loop is for the compiler. */
static inline __attribute__((noreturn)) void tv_finish(unsigned int word)
{
    *(volatile unsigned int *)0x00100000UL = word;
    for (;;) {
    }
}

/* Switches the machine off: status 0. */
static inline __attribute__((noreturn)) void tv_off(void)
{
    tv_finish(0x5555);
}

/* Reports a failure with a code: status 1, and tv names the code. */
static inline __attribute__((noreturn)) void tv_fail(unsigned short code)
{
    tv_finish((unsigned int)code << 16 | 0x3333);
}

/* The software interrupt of a hart in the timer block: up while bit 0 is set. */
static inline volatile unsigned int *tv_msip(unsigned long hart)
{
    return (volatile unsigned int *)(0x02000000UL + 4 * hart);
}

/* The time from which on the timer interrupt of a hart is up; all ones at the start. */
static inline volatile unsigned long *tv_mtimecmp(unsigned long hart)
{
    return (volatile unsigned long *)(0x02004000UL + 8 * hart);
}

/* The time, which all harts have in common. */
static inline unsigned long tv_mtime(void)
{
    return *(volatile unsigned long *)0x0200bff8UL;
}

/* The registers of a probe, each to be accessed with the width that it has here. */
struct tv_probe {
    volatile unsigned long addr;  /* an address of memory */
    volatile unsigned int len;    /* how many bytes are read or written, 1 to 8 */
    const unsigned int reserved;
    volatile unsigned long data;  /* what was read, or is to be written, least byte first */
    volatile unsigned int go;     /* a store starts an action */
    volatile unsigned int result; /* of the last action: 0 for none yet, 1 done, 2 refused */
    volatile unsigned long count; /* how many stores the probe had */
};

/* The actions of a probe. */
enum { TV_PROBE_READ = 1, TV_PROBE_WRITE, TV_PROBE_RAISE, TV_PROBE_RELEASE, TV_PROBE_REGAIN };

/* The probe in a slot of the machine. */
static inline struct tv_probe *tv_probe(unsigned long slot)
{
    return (struct tv_probe *)(0x10001000UL + 0x1000 * slot);
}

/* The priority of an interrupt source, 0 to 7. The source of the device in slot d is d + 1. */
static inline volatile unsigned int *tv_priority(unsigned long source)
{
    return (volatile unsigned int *)(0x0c000000UL + 4 * source);
}

/* The sources that may interrupt a hart, a bit each. */
static inline volatile unsigned int *tv_enable(unsigned long hart)
{
    return (volatile unsigned int *)(0x0c002000UL + 0x80 * hart);
}

/* A load claims the source of greatest priority that is pending, 0 for none; a store of its number completes it. */
static inline volatile unsigned int *tv_claim(unsigned long hart)
{
    return (volatile unsigned int *)(0x0c200004UL + 0x1000 * hart);
}

/* Reads a control and status register by its name, as READ_CSR(mcause). */
#define READ_CSR(name)                                    \
    ({                                                    \
        unsigned long csr_value;                          \
        asm volatile("csrr %0, " #name : "=r"(csr_value)); \
        csr_value;                                        \
    })

/* Writes a control and status register by its name, as WRITE_CSR(mtvec, handler). */
#define WRITE_CSR(name, value) asm volatile("csrw " #name ", %0" : : "r"(value) : "memory")

/* Sets bits of a control and status register and leaves the others, as SET_CSR(mstatus, 8). */
#define SET_CSR(name, bits) asm volatile("csrs " #name ", %0" : : "r"(bits) : "memory")

#endif
