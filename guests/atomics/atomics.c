/* A lock by LR and SC, the cases in which an SC fails, and counters by atomic operations (AMO). */

#include "tv.h"

static void put_signed(long number)
{
    if (number < 0) {
        tv_put_byte('-');
        number = -number;
    }
    if (number > 9)
        put_signed(number / 10);
    tv_put_byte((char)('0' + number % 10));
}

/* Puts a name, a number and a newline. */
static void tell(const char *name, long number)
{
    tv_put_text(name);
    tv_put_byte(' ');
    put_signed(number);
    tv_put_byte('\n');
}

/* Loads a number and reserves its place. */
static long load_reserved(volatile long *place)
{
    long number;
    asm volatile("lr.d %0, (%1)" : "=r"(number) : "r"(place) : "memory");
    return number;
}

/* Stores where the place is still reserved. 0 is success. */
static long store_conditional(volatile long *place, long number)
{
    long failed;
    asm volatile("sc.d %0, %2, (%1)" : "=&r"(failed) : "r"(place), "r"(number) : "memory");
    return failed;
}

/* Takes a lock that is free (0). Answers whether it was. Between LR and SC stands no other load or store. */
static int try_lock(volatile int *lock)
{
    int held;
    int failed;
    asm volatile("1: lr.w.aq %0, (%2)\n"
                 "   bnez %0, 2f\n"
                 "   sc.w %1, %3, (%2)\n"
                 "   bnez %1, 1b\n"
                 "2:"
                 : "=&r"(held), "=&r"(failed)
                 : "r"(lock), "r"(1)
                 : "memory");
    return held == 0;
}

static void unlock(volatile int *lock)
{
    asm volatile("amoswap.w.rl zero, zero, (%0)" : : "r"(lock) : "memory");
}

static volatile int lock;
static volatile long first, second;
static volatile long wide = 40;
static volatile int narrow = 40;

static void tell_change(long old, long new, char end)
{
    put_signed(old);
    tv_put_text(" to ");
    put_signed(new);
    tv_put_byte(end);
}

/* Tells what an atomic operation gave back and made of the two counters. */
static void tell_counters(const char *name, long old_wide, long old_narrow)
{
    tv_put_text(name);
    tell_change(old_wide, wide, ',');
    tv_put_byte(' ');
    tell_change(old_narrow, narrow, '\n');
}

/* Does one atomic operation on the counter of 64 bits and the one of 32. */
#define DO_AMO(name, operand)                                                                         \
    do {                                                                                              \
        long old_wide;                                                                                \
        long old_narrow;                                                                              \
        asm volatile("amo" name ".d %0, %2, %1" : "=&r"(old_wide), "+A"(wide) : "r"(operand));       \
        asm volatile("amo" name ".w %0, %2, %1" : "=&r"(old_narrow), "+A"(narrow) : "r"(operand));   \
        tell_counters(name " ", old_wide, old_narrow);                                                \
    } while (0)

int main(void)
{
    tell("lock", try_lock(&lock));
    tell("lock again", try_lock(&lock));
    unlock(&lock);
    tell("lock after unlock", try_lock(&lock));

    first = 10;
    long number = load_reserved(&first);
    tell("store after its load", store_conditional(&first, number + 1));
    tell("a second one", store_conditional(&first, 99));
    load_reserved(&first);
    load_reserved(&second);
    tell("store after another reservation", store_conditional(&first, 99));
    tell("and after that one's end", store_conditional(&second, 99));
    tell("first", first);
    tell("second", second);

    DO_AMO("add", 2L);
    DO_AMO("swap", -0x80000000L);
    DO_AMO("add", -1L);
    DO_AMO("xor", 255L);
    DO_AMO("and", 0x7ffffff0L);
    DO_AMO("or", 7L);
    DO_AMO("min", -5L);
    DO_AMO("minu", 9L);
    DO_AMO("max", -3L);
    DO_AMO("maxu", -2L);
    return 0;
}
