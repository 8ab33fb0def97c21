/* What gcc and rustc call by themselves, say for a struct that is copied, and no C library is there to give. What a task does not use
   is left out, and a task may have its own. */
typedef __SIZE_TYPE__ size_t;
#define ANY __attribute__((weak))

ANY void *memcpy(void *to, const void *from, size_t n)
{
    for (size_t i = 0; i < n; i++)
        ((char *)to)[i] = ((const char *)from)[i];
    return to;
}

ANY void *memmove(void *to, const void *from, size_t n)
{
    if (to < from)
        for (size_t i = 0; i < n; i++)
            ((char *)to)[i] = ((const char *)from)[i];
    else
        while (n-- > 0)
            ((char *)to)[n] = ((const char *)from)[n];
    return to;
}

ANY void *memset(void *to, int byte, size_t n)
{
    for (size_t i = 0; i < n; i++)
        ((char *)to)[i] = byte;
    return to;
}

ANY int memcmp(const void *a, const void *b, size_t n)
{
    const unsigned char *x = a, *y = b;
    for (size_t i = 0; i < n; i++)
        if (x[i] != y[i])
            return x[i] - y[i];
    return 0;
}

/* by the names of the Arm ABI */
ANY void __aeabi_memcpy(void *to, const void *from, size_t n) { memcpy(to, from, n); }
ANY void __aeabi_memcpy4(void *to, const void *from, size_t n) { memcpy(to, from, n); }
ANY void __aeabi_memcpy8(void *to, const void *from, size_t n) { memcpy(to, from, n); }
ANY void __aeabi_memmove(void *to, const void *from, size_t n) { memmove(to, from, n); }
ANY void __aeabi_memmove4(void *to, const void *from, size_t n) { memmove(to, from, n); }
ANY void __aeabi_memmove8(void *to, const void *from, size_t n) { memmove(to, from, n); }
ANY void __aeabi_memset(void *to, size_t n, int byte) { memset(to, byte, n); }
ANY void __aeabi_memset4(void *to, size_t n, int byte) { memset(to, byte, n); }
ANY void __aeabi_memset8(void *to, size_t n, int byte) { memset(to, byte, n); }
ANY void __aeabi_memclr(void *to, size_t n) { memset(to, 0, n); }
ANY void __aeabi_memclr4(void *to, size_t n) { memset(to, 0, n); }
ANY void __aeabi_memclr8(void *to, size_t n) { memset(to, 0, n); }
