/* Mixed work without end: calls, loads and stores of each size, branches, multiplications, and a division now and then.
   A run ends at its limit of events. With ROUNDS defined it makes that many rounds and prints what came of them, for a
   comparison with another machine.

   Built at the top of the repository, where `-DROUNDS=100` may be added, by

       riscv64-unknown-elf-gcc -march=rv64ima_zicsr_zifencei -mabi=lp64 -mcmodel=medany -mno-relax -ffreestanding \
           -fno-pie -O2 -fno-tree-loop-distribute-patterns -Iguests/c -nostdlib -static -no-pie -Wl,--build-id=none \
           -T guests/c/flat.ld -o mixed.elf guests/c/start.S bench/mixed.c
       riscv64-unknown-elf-objcopy -O binary mixed.elf bench/mixed.bin
*/

#include "tv.h"

enum { NUMBERS = 64, SLOTS = 256, SIDE = 6 };

struct entry {
    unsigned long key;
    unsigned int count;
};

static unsigned short numbers[NUMBERS];
static struct entry table[SLOTS];
static int left[SIDE][SIDE], right[SIDE][SIDE], product[SIDE][SIDE];
static char text[NUMBERS + 1];
static unsigned long state = 1;

/* The next number of a sequence that looks like chance. */
static __attribute__((noinline)) unsigned int next(void)
{
    state = state * 6364136223846793005 + 1442695040888963407;
    return (unsigned int)(state >> 33);
}

/* Sorts the numbers by insertion and gives their mean. */
static __attribute__((noinline)) unsigned long sort(void)
{
    unsigned long sum = 0;
    for (int i = 0; i < NUMBERS; i++)
        numbers[i] = (unsigned short)next();
    for (int i = 1; i < NUMBERS; i++) {
        unsigned short number = numbers[i];
        int at = i;
        for (; at > 0 && numbers[at - 1] > number; at--)
            numbers[at] = numbers[at - 1];
        numbers[at] = number;
    }
    for (int i = 0; i < NUMBERS; i++)
        sum += numbers[i];
    return sum / NUMBERS;
}

/* Writes a text of letters and gives a hash of it. */
static __attribute__((noinline)) unsigned long hash(void)
{
    unsigned long sum = 14695981039346656037UL;
    for (int i = 0; i < NUMBERS; i++)
        text[i] = (char)('a' + next() % 26);
    for (const char *at = text; *at != 0; at++)
        sum = (sum ^ (unsigned char)*at) * 1099511628211;
    return sum;
}

/* Counts a key in the table. */
static __attribute__((noinline)) unsigned int count(unsigned long key)
{
    for (int tries = 0; tries < 8; tries++) {
        struct entry *entry = &table[(key + tries) % SLOTS];
        if (entry->count == 0)
            entry->key = key;
        if (entry->key == key)
            return ++entry->count;
    }
    table[key % SLOTS] = (struct entry){key, 1};
    return 1;
}

/* Multiplies two matrices and gives the sum of the diagonal. */
static __attribute__((noinline)) long multiply(void)
{
    long sum = 0;
    for (int row = 0; row < SIDE; row++)
        for (int column = 0; column < SIDE; column++) {
            left[row][column] = (int)next() % 100;
            right[row][column] = row - column;
        }
    for (int row = 0; row < SIDE; row++)
        for (int column = 0; column < SIDE; column++) {
            int cell = 0;
            for (int place = 0; place < SIDE; place++)
                cell += left[row][place] * right[place][column];
            product[row][column] = cell;
        }
    for (int row = 0; row < SIDE; row++)
        sum += product[row][row];
    return sum;
}

/* The number of ways up some stairs by one or two steps at a time, by calls alone. */
static __attribute__((noinline)) unsigned long ways(unsigned long stairs)
{
    return stairs < 2 ? 1 : ways(stairs - 1) + ways(stairs - 2);
}

/* One round of all of it. */
static unsigned long once(unsigned long round)
{
    unsigned long sum = sort() + hash() + (unsigned long)multiply() + ways(8 + round % 4);
    for (int i = 0; i < 32; i++)
        sum = sum * 31 + count(next() % 500);
    return sum;
}

#ifndef ROUNDS
#define ROUNDS (-1UL) /* more than any run makes */
#endif

static volatile unsigned long result;

int main(void)
{
    for (unsigned long round = 0; round < ROUNDS; round++)
        result = result * 3 + once(round);
    for (int shift = 60; shift >= 0; shift -= 4)
        tv_put_byte("0123456789abcdef"[result >> shift & 15]);
    tv_put_byte('\n');
    return 0;
}
