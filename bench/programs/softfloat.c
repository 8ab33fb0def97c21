/* Sums, products and quotients of IEEE 754 single precision by whole numbers, rounded to nearest, ties to even; the
   operands are normal numbers. A polynomial, a Newton step and a harmonic sum are taken of them. */
#include "common.h"

typedef u32 real;

static real packed(u32 sign, s32 exponent, u32 fraction)
{
    /* the fraction has 1 at bit 30 or above; its low 7 bits are to be rounded away */
    while (fraction < 0x40000000u)
        fraction <<= 1, exponent--;
    if (fraction & 0x80000000u)
        fraction = fraction >> 1 | (fraction & 1), exponent++;
    u32 rest = fraction & 127;
    fraction = (fraction + 64) >> 7;
    if (rest == 64)
        fraction &= ~1u;
    return sign + ((u32)exponent << 23) + fraction - 0x00800000u;
}

static s32 exponent_of(real x) { return x >> 23 & 255; }
static u32 fraction_of(real x) { return (x & 0x007FFFFFu) | 0x00800000u; }

static real product(real x, real y)
{
    u32 a = fraction_of(x), b = fraction_of(y);
    u32 high = (a >> 12) * (b >> 12), low = (a & 4095) * (b & 4095);
    u32 middle = (a >> 12) * (b & 4095) + (a & 4095) * (b >> 12) + (low >> 12);
    u32 sum = (high << 7) + (middle >> 5);
    if ((middle & 31) | (low & 4095))
        sum |= 1;
    return packed((x ^ y) & 0x80000000u, exponent_of(x) + exponent_of(y) - 126, sum);
}

static real quotient(real x, real y)
{
    u32 a = fraction_of(x), b = fraction_of(y), q = 0;
    for (u32 k = 0; k < 31; k++) {
        q <<= 1;
        if (a >= b)
            a -= b, q |= 1;
        a <<= 1;
    }
    return packed((x ^ y) & 0x80000000u, exponent_of(x) - exponent_of(y) + 127, q | (a != 0));
}

static real total(real x, real y)
{
    if ((x & 0x7FFFFFFFu) < (y & 0x7FFFFFFFu)) {
        real kept = x;
        x = y;
        y = kept;
    }
    s32 apart = exponent_of(x) - exponent_of(y);
    u32 a = fraction_of(x) << 6, b = fraction_of(y) << 6;
    if (apart > 30)
        return x;
    u32 lost = apart ? b << (32 - apart) : 0;
    b = b >> apart | (lost != 0);
    if ((x ^ y) & 0x80000000u)
        a -= b;
    else
        a += b;
    if (a == 0)
        return 0x00800000u;
    return packed(x & 0x80000000u, exponent_of(x) + 1, a);
}

void work(u32 state[8])
{
    real one = 0x3F800000u, half = 0x3F000000u;
    real x = 0x3F800000u | (state[0] & 0x007FFFFFu), root = one, sum = one, term = one, n = one;
    for (u32 k = 0; k < 6; k++)
        root = product(half, total(root, quotient(x, root)));
    for (u32 k = 0; k < 12; k++) {
        term = product(term, quotient(x, n));
        sum = total(sum, term);
        n = total(n, one);
    }
    for (u32 k = 0; k < 40; k++) {
        term = quotient(one, n);
        sum = total(sum, k & 1 ? term : term ^ 0x80000000u);
        n = total(n, one);
    }
    state[0] = state[0] * 1664525u + root;
    state[1] ^= sum;
    state[2] = root;
}
