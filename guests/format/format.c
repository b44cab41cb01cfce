/* Prints tables of numbers by a formatted output of its own: decimal with and without sign, hexadecimal, filled on the
   left with spaces or zeros. Digits come by division, whose instructions are those of the extension M. */

#include "tv.h"

enum sign { UNSIGNED, SIGNED };

/* Puts a number in a base of 2 to 16, filled on the left to a width. */
static void put_number(unsigned long number, enum sign sign, unsigned long base, int width, char fill)
{
    char digits[65];
    int count = 0;
    int is_negative = sign == SIGNED && (long)number < 0;
    if (is_negative)
        number = -number;
    do {
        digits[count++] = "0123456789abcdef"[number % base];
        number /= base;
    } while (number != 0);
    if (is_negative)
        digits[count++] = '-';
    for (; width > count; width--)
        tv_put_byte(fill);
    while (count > 0)
        tv_put_byte(digits[--count]);
}

static void put_unsigned(unsigned long number, int width)
{
    put_number(number, UNSIGNED, 10, width, ' ');
}

static void put_signed(long number, int width)
{
    put_number((unsigned long)number, SIGNED, 10, width, ' ');
}

static const long numbers[] = {
    0, 7, -1, 65536, -1234567890123456789, 0x7fffffffffffffff, -0x7fffffffffffffff - 1,
};

static const int pairs[][2] = {{100, 7}, {-100, 7}, {100, -7}, {-100, -7}};

int main(void)
{
    tv_put_text("            unsigned               signed hexadecimal        rest of 1000\n");
    for (unsigned row = 0; row < sizeof numbers / sizeof numbers[0]; row++) {
        long number = numbers[row];
        put_unsigned((unsigned long)number, 20);
        put_signed(number, 21);
        tv_put_byte(' ');
        put_number((unsigned long)number, UNSIGNED, 16, 16, '0');
        put_signed(number % 1000, 15);
        tv_put_byte('\n');
    }
    for (unsigned row = 0; row < sizeof pairs / sizeof pairs[0]; row++) {
        int number = pairs[row][0];
        int divisor = pairs[row][1];
        put_signed(number, 4);
        tv_put_text(" / ");
        put_signed(divisor, 2);
        tv_put_text(" = ");
        put_signed(number / divisor, 3);
        tv_put_text(" rest ");
        put_signed(number % divisor, 2);
        tv_put_byte('\n');
    }
    unsigned long product = 1;
    for (unsigned long factor = 1; factor <= 20; factor++) {
        product *= factor;
        if (factor % 5 == 0) {
            put_unsigned(factor, 2);
            tv_put_text("! = ");
            put_unsigned(product, 0);
            tv_put_byte('\n');
        }
    }
    return 0;
}
