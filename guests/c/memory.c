/* The four functions that a compiler may call by itself, also where a program names none of them. */

typedef __SIZE_TYPE__ size;

void *memcpy(void *restrict to, const void *restrict from, size count)
{
    unsigned char *target = to;
    const unsigned char *source = from;
    while (count-- > 0)
        *target++ = *source++;
    return to;
}

void *memmove(void *to, const void *from, size count)
{
    unsigned char *target = to;
    const unsigned char *source = from;
    if (target <= source)
        return memcpy(to, from, count);
    while (count-- > 0)
        target[count] = source[count];
    return to;
}

void *memset(void *to, int byte, size count)
{
    unsigned char *target = to;
    while (count-- > 0)
        *target++ = (unsigned char)byte;
    return to;
}

int memcmp(const void *one, const void *other, size count)
{
    const unsigned char *left = one;
    const unsigned char *right = other;
    for (; count > 0; count--, left++, right++)
        if (*left != *right)
            return *left - *right;
    return 0;
}
