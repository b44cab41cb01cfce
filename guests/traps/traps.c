/* Takes a trap of each cause that one hart can make on purpose, tells its mcause and mtval, and goes on behind it. */

#include "tv.h"

/* The registers of the interrupted code, as entry.S lays them out. */
struct frame {
    unsigned long ra, t[7], a[8];
};

enum cause { LOAD_MISALIGNED = 4, CALL = 11 };
enum service { ADD = 1, MULTIPLY = 2 };

void trap_entry(void);

static void put_hexadecimal(unsigned long number)
{
    for (int shift = 28; shift >= 0; shift -= 4)
        tv_put_byte("0123456789abcdef"[number >> shift & 15]);
}

static void put_decimal(unsigned long number)
{
    if (number > 9)
        put_decimal(number / 10);
    tv_put_byte((char)('0' + number % 10));
}

/* Serves a trap. The instruction that made it is left behind. */
void handle_trap(struct frame *frame)
{
    unsigned long cause = READ_CSR(mcause);
    unsigned long value = READ_CSR(mtval);
    tv_put_text("  mcause ");
    put_decimal(cause);
    tv_put_text(" mtval ");
    put_hexadecimal(value);
    tv_put_byte('\n');
    if (cause == CALL) {
        if (frame->a[7] == ADD)
            frame->a[0] += frame->a[1];
        else if (frame->a[7] == MULTIPLY)
            frame->a[0] *= frame->a[1];
    } else if (cause == LOAD_MISALIGNED) {
        /* Does the load of 4 bytes, whose register is a0, byte by byte. */
        const volatile unsigned char *bytes = (const volatile unsigned char *)value;
        frame->a[0] = 0;
        for (int place = 3; place >= 0; place--)
            frame->a[0] = frame->a[0] << 8 | bytes[place];
    }
    WRITE_CSR(mepc, READ_CSR(mepc) + 4);
}

/* Asks the handler for a service, by its number in a7. */
static unsigned long call(enum service service, unsigned long one, unsigned long other)
{
    register unsigned long a0 asm("a0") = one;
    register unsigned long a1 asm("a1") = other;
    register unsigned long a7 asm("a7") = service;
    asm volatile("ecall" : "+r"(a0) : "r"(a1), "r"(a7) : "memory");
    return a0;
}

/* Loads 4 bytes into a0, whatever the address. */
static unsigned long load_word(unsigned long address)
{
    register unsigned long a0 asm("a0") = address;
    asm volatile("lw a0, 0(a0)" : "+r"(a0) : : "memory");
    return a0;
}

int main(void)
{
    WRITE_CSR(mtvec, trap_entry);

    tv_put_text("calls\n");
    put_decimal(call(ADD, 20, 22));
    tv_put_byte('\n');
    put_decimal(call(MULTIPLY, 20, 22));
    tv_put_byte('\n');

    tv_put_text("a word that is no instruction\n");
    asm volatile(".word 0xffffffff");

    tv_put_text("a breakpoint\n");
    asm volatile("ebreak");

    /* Words far behind the image, so that no address of these lines depends on the compiler. */
    *(volatile unsigned long *)0x80080000UL = 0x8877665544332211;
    tv_put_text("a load that isn't aligned\n");
    put_hexadecimal(load_word(0x80080001UL));
    tv_put_byte('\n');

    tv_put_text("a jump that isn't aligned\n");
    asm volatile("jr %0" : : "r"(0x80080002UL));

    tv_put_text("a load and a store outside\n");
    asm volatile("ld zero, 0(zero)");
    asm volatile("sb zero, 8(zero)");

    tv_put_text("done\n");
    return 0;
}
