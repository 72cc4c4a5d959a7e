/* memcpy, memmove and memset for strict archives: they read and write whole words only at addresses that are multiples of 4, so that a core
 * that traps unaligned accesses (UNALIGN_TRP) runs them. The C library's own may be faster and make unaligned accesses. They are weak: a product's own
 * memcpy, memmove or memset takes their place, and must then be strict itself.
 */

/* The compiler's own types: the kit's compiler comes without headers. A word may alias anything. */
typedef __SIZE_TYPE__ size_t;
typedef __UINTPTR_TYPE__ uintptr_t;
typedef __UINT8_TYPE__ uint8_t;
typedef __UINT32_TYPE__ __attribute__((may_alias)) word;

#define WEAK __attribute__((weak))

static int aligned(const void *a, const void *b)
{
    return (((uintptr_t)a | (uintptr_t)b) & 3) == 0;
}

/* The bytes may overlap if they go down. */
static void copy_upwards(uint8_t *to, const uint8_t *from, size_t length)
{
    if (aligned(to, from))
        for (; length >= 4; length -= 4, to += 4, from += 4)
            *(word *)to = *(const word *)from;
    while (length-- > 0)
        *to++ = *from++;
}

WEAK void *memcpy(void *restrict to, const void *restrict from, size_t length)
{
    copy_upwards(to, from, length);
    return to;
}

WEAK void *memmove(void *to, const void *from, size_t length)
{
    uint8_t *t = to;
    const uint8_t *f = from;

    /* not from + 1 to from + length - 1: nothing is overwritten before it is read */
    if ((uintptr_t)t - (uintptr_t)f >= length)
        copy_upwards(t, f, length);
    else
        while (length-- > 0)
            t[length] = f[length];
    return to;
}

WEAK void *memset(void *to, int byte, size_t length)
{
    uint8_t *t = to;
    word four = (uint8_t)byte * 0x01010101u;

    if (aligned(t, t))
        for (; length >= 4; length -= 4, t += 4)
            *(word *)t = four;
    while (length-- > 0)
        *t++ = (uint8_t)byte;
    return to;
}
