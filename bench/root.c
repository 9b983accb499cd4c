/* Holds gritstrut_sqrt against the machine's root on many bit patterns, and times both.
 *
 *     tools/library
 *     cc -std=c99 -D_POSIX_C_SOURCE=199309L -O2 -Wall -Wextra -I include bench/root.c target/staticlib/libgritstrut.a -lm -o target/root && target/root
 */
#include <inttypes.h>
#include <math.h>
#include <stdio.h>
#include <stdlib.h>
#include <string.h>
#include <time.h>

#include "gritstrut.h"

#define SIGN 0x8000000000000000u
#define INFINITE 0x7ff0000000000000u
#define NORMAL 0x0010000000000000u

static uint64_t state = 88172645463325252u;
static uint64_t tried, differing;

static uint64_t draw(void)
{
    state ^= state << 13;
    state ^= state >> 7;
    state ^= state << 17;
    return state * 2685821657736338717u;
}

static double of_bits(uint64_t bits)
{
    double x;
    memcpy(&x, &bits, sizeof x);
    return x;
}

static uint64_t to_bits(double x)
{
    uint64_t bits;
    memcpy(&bits, &x, sizeof bits);
    return bits;
}

static void compare(uint64_t bits)
{
    double x = of_bits(bits), ours = gritstrut_sqrt(x), theirs = sqrt(x);
    tried++;
    if (isnan(theirs) ? isnan(ours) : to_bits(ours) == to_bits(theirs)) {
        return;
    }
    if (differing++ < 10) {
        printf("%016" PRIx64 ": %016" PRIx64 ", machine %016" PRIx64 "\n", bits, to_bits(ours), to_bits(theirs));
    }
}

static void compare_around(uint64_t bits)
{
    compare(bits - 1);
    compare(bits);
    compare(bits + 1);
}

/* Zeros, infinities, NaNs of both kinds and signs, and both ends of every binade. */
static void compare_ends(void)
{
    const uint64_t special[] = {0, SIGN, INFINITE, INFINITE | SIGN, INFINITE + 1, INFINITE + (NORMAL >> 1), SIGN | (INFINITE + 1), SIGN | (INFINITE + (NORMAL >> 1))};
    for (size_t i = 0; i < sizeof special / sizeof special[0]; i++) {
        compare_around(special[i]);
    }
    for (uint64_t e = 0; e < 2047; e++) {
        for (uint64_t t = 0; t < 64; t++) {
            compare(e * NORMAL + t);
            compare(e * NORMAL + NORMAL - 1 - t);
        }
    }
}

/* Random patterns, subnormals of every length, whole numbers, squares and their neighbours. */
static void compare_drawn(long n)
{
    for (long i = 0; i < n; i++) {
        compare(draw());
        compare(draw() >> 1);
        compare(draw() >> (12 + draw() % 52));
        compare(to_bits((double)(draw() >> (draw() % 60))));
        double root = of_bits(draw() % 0x5ff0000000000000u);
        compare_around(to_bits(root * root));
        double whole = (double)(draw() >> (38 + draw() % 26));
        compare_around(to_bits(whole * whole));
    }
}

static double seconds(void)
{
    struct timespec t;
    clock_gettime(CLOCK_PROCESS_CPUTIME_ID, &t);
    return (double)t.tv_sec + (double)t.tv_nsec * 1e-9;
}

static double nanoseconds(double (*root)(double), const double *xs, size_t n)
{
    double best = 1e9;
    volatile double sink = 0.0;
    for (int run = 0; run < 9; run++) {
        double total = 0.0, start = seconds();
        for (size_t i = 0; i < n; i++) {
            total += root(xs[i]);
        }
        sink += total;
        double each = (seconds() - start) * 1e9 / (double)n;
        best = each < best ? each : best;
    }
    return best;
}

static double machine(double x)
{
    return sqrt(x);
}

int main(int argc, char **argv)
{
    enum { TIMED = 1 << 16 };
    static double xs[TIMED];
    compare_ends();
    compare_drawn(argc > 1 ? atol(argv[1]) : 2000000);
    printf("%" PRIu64 " patterns, %" PRIu64 " differ\n", tried, differing);
    for (size_t i = 0; i < TIMED; i++) {
        xs[i] = of_bits(NORMAL + draw() % (INFINITE - NORMAL));
    }
    double ours = nanoseconds(gritstrut_sqrt, xs, TIMED), theirs = nanoseconds(machine, xs, TIMED);
    printf("%.1f ns a call, machine %.1f ns, ratio %.1f\n", ours, theirs, ours / theirs);
    return differing != 0;
}
