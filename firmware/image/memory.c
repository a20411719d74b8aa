/* What compiled code takes for granted, for want of a C library. Compiled so that no loop here becomes a call of itself. */
#include <stdint.h>
#include <string.h>

void *memcpy(void *to, const void *from, size_t len)
{
    uint8_t *into = to;
    const uint8_t *bytes = from;

    for (size_t i = 0; i < len; i++)
        into[i] = bytes[i];
    return to;
}

void *memmove(void *to, const void *from, size_t len)
{
    uint8_t *into = to;
    const uint8_t *bytes = from;

    if ((uintptr_t)to < (uintptr_t)from)
        return memcpy(to, from, len);
    for (size_t i = len; i > 0; i--)
        into[i - 1] = bytes[i - 1];
    return to;
}

void *memset(void *to, int value, size_t len)
{
    uint8_t *into = to;

    for (size_t i = 0; i < len; i++)
        into[i] = (uint8_t)value;
    return to;
}

int memcmp(const void *one, const void *two, size_t len)
{
    const uint8_t *a = one;
    const uint8_t *b = two;

    for (size_t i = 0; i < len; i++)
        if (a[i] != b[i])
            return a[i] - b[i];
    return 0;
}

#ifdef __ARM_EABI__
/* the names that Arm's run-time ABI gives them */
void __aeabi_memcpy(void *to, const void *from, size_t len);
void __aeabi_memcpy4(void *to, const void *from, size_t len);
void __aeabi_memcpy8(void *to, const void *from, size_t len);
void __aeabi_memmove(void *to, const void *from, size_t len);
void __aeabi_memclr(void *to, size_t len);
void __aeabi_memclr4(void *to, size_t len);
void __aeabi_memclr8(void *to, size_t len);

void __aeabi_memcpy(void *to, const void *from, size_t len)
{
    memcpy(to, from, len);
}

void __aeabi_memcpy4(void *to, const void *from, size_t len)
{
    memcpy(to, from, len);
}

void __aeabi_memcpy8(void *to, const void *from, size_t len)
{
    memcpy(to, from, len);
}

void __aeabi_memmove(void *to, const void *from, size_t len)
{
    memmove(to, from, len);
}

void __aeabi_memclr(void *to, size_t len)
{
    memset(to, 0, len);
}

void __aeabi_memclr4(void *to, size_t len)
{
    memset(to, 0, len);
}

void __aeabi_memclr8(void *to, size_t len)
{
    memset(to, 0, len);
}
#endif
