/* Looks for the f64 whose cube roots are nearest to a midpoint of two f64: the hard cases of roots_vectors.py.

       cc -O2 -o /tmp/hard_cubes oracle/hard_cubes.c -lm
       /tmp/hard_cubes SHIFT FIRST BLOCKS DIGITS

   Takes BLOCKS × 65,536 whole numbers m of 53 binary digits, from FIRST on, and prints those with an odd c for which
   |c^3 - m × 2^(107 + SHIFT)| is below 2^DIGITS: SHIFT, m, c, the difference's sign and its binary logarithm. The
   root of m × 2^(SHIFT - 52), an f64 from 1 to 8, is then nearly c × 2^-53, a midpoint of two f64: to within the
   difference over 3 × c^2 of such a unit. The least difference over all m is to be expected near 2^55.

   Over a block the root is its tangent to within e, so a candidate is an m whose tangent is within e of an odd number:
   a multiple of a fixed fraction in a fixed interval, modulo 1. The first such multiple comes by the steps of Euclid's
   algorithm on the fraction (its continued fraction), about twenty a block, and not by trying 65,536. What is printed
   is worked out in whole numbers. The cases in roots_vectors.py come from SHIFT 0, 1 and 2, FIRST 0x18000000000000,
   BLOCKS 67108864, DIGITS 68: half a minute each. */
#include <math.h>
#include <stdint.h>
#include <stdio.h>
#include <stdlib.h>

typedef unsigned __int128 wide;
#define BLOCK 65536ull
#define TURN (1ull << 62) /* fractions of 1 are counted in units of 2^-62 */
#define NONE (~0ull)

/* The least x with low <= step × x mod turn <= high, or NONE beyond BLOCK. */
static uint64_t first_inside(uint64_t step, uint64_t turn, uint64_t low, uint64_t high) {
    if (low == 0)
        return 0;
    if (step == 0)
        return NONE;
    if (2 * step > turn) {
        uint64_t mirrored = turn - high;
        high = turn - low;
        low = mirrored;
        step = turn - step;
    }
    uint64_t x = (low + step - 1) / step;
    if ((wide)x * step <= high)
        return x;
    uint64_t turns = first_inside((step - turn % step) % step, step, low % step, high % step);
    if (turns == NONE)
        return NONE;
    wide y = ((wide)turn * turns + low + step - 1) / step;
    return y > BLOCK ? NONE : (uint64_t)y;
}

/* c^3 - m × 2^shift, which is below 2^127 in size. */
static __int128 difference(uint64_t c, uint64_t m, int shift) {
    return (__int128)((wide)c * c * c - ((wide)m << shift));
}

static void show(int s, uint64_t m, int digits) {
    uint64_t near = (uint64_t)llrintl(cbrtl(ldexpl((long double)m, 107 + s)));
    for (uint64_t c = near - 1; c <= near + 1; c++) {
        __int128 d = difference(c, m, 107 + s);
        long double size = fabsl((long double)d);
        if (c % 2 == 1 && size < ldexpl(1, digits))
            printf("%d %014llx %014llx %c %.2Lf\n", s, (unsigned long long)m, (unsigned long long)c, d < 0 ? '-' : '+', log2l(size));
    }
}

static void block(int s, uint64_t first, int digits) {
    /* the root at the middle: c and a rest, to 2^-64 */
    uint64_t middle = first + BLOCK / 2;
    long double m = ldexpl((long double)middle, s);
    uint64_t c = (uint64_t)llrintl(cbrtl(ldexpl(m, 107)));
    long double d = (long double)difference(c, middle, 107 + s), r = c;
    long double rest = -d / (3 * r * r) - d * d / (9 * r * r * r * r * r);
    /* half of (root - 1) is near a whole number where the root is near an odd one */
    long double slope = ldexpl(r + rest, s) / (6 * m);
    long double bend = ldexpl(r, 2 * s) / (9 * m * m);
    long double error = bend * BLOCK * BLOCK / 8 * 1.1L + ldexpl(1, -44);
    long double start = ((c - 1) % 2 ? 0.5L : 0) + rest / 2 - slope * (BLOCK / 2);
    uint64_t from = (uint64_t)((start - floorl(start)) * TURN) % TURN;
    uint64_t step = (uint64_t)((slope - floorl(slope)) * TURN), about = (uint64_t)(error * TURN);
    for (uint64_t t = 0; t < BLOCK; t++) {
        uint64_t low = (TURN - (uint64_t)((from + (wide)step * t) % TURN) + TURN - about) % TURN;
        uint64_t x = low + 2 * about >= TURN ? 0 : first_inside(step, TURN, low, low + 2 * about);
        if (x == NONE || t + x >= BLOCK)
            return;
        t += x;
        show(s, first + t, digits);
    }
}

int main(int count, char **words) {
    if (count != 5)
        return 1;
    int s = atoi(words[1]);
    uint64_t first = strtoull(words[2], 0, 0), blocks = strtoull(words[3], 0, 0);
    for (uint64_t k = 0; k < blocks; k++)
        block(s, first + k * BLOCK, atoi(words[4]));
    return 0;
}
