/* What settling and certifying a day takes, beside its reconciliation.

       gcc -O2 -Iinclude bench/settle.c target/staticlib/libgritstrut.a -lm -o target/settle && target/settle

   Days are drawn from a seed. Those of 12 meters, 4 balances and 12 zeros are such that the first working is certain, those of 16
   values, 12 or 16 balances and 48 limits such that it is not, so that they are worked again. Of each day the least of 400 calls is
   taken, in microseconds of this thread's time; printed are the median and the longest of the days. */
#include <math.h>
#include <stdint.h>
#include <stdio.h>
#include <stdlib.h>
#include <string.h>
#include <time.h>

#include "gritstrut.h"

enum { DAYS = 300, CALLS = 400, ROOM = 8192, PLACES = 512 };

static double w[ROOM], v[16], s[16], c[256], a[768], b[48], x[16], mu[64], first[16], weights[64];
static uint32_t iw[PLACES], before[16], after[16];
static uint8_t named[16];
static uint64_t state = 88172645463325252u;

static double share(void) {
    state ^= state << 13;
    state ^= state >> 7;
    state ^= state << 17;
    return (double)((state * 2685821657736338717u) >> 11) / 9007199254740992.0;
}

static double now(void) {
    struct timespec t;
    clock_gettime(CLOCK_THREAD_CPUTIME_ID, &t);
    return 1e6 * (double)t.tv_sec + 1e-3 * (double)t.tv_nsec;
}

/* The bound of LSEI's own answer; 1 where it has none. */
static double first_bound(size_t n, size_t m, size_t p) {
    static double e[256], f[16], zeros[16];
    double bound = 1;
    uint32_t place;
    memset(e, 0, sizeof e);
    for (size_t i = 0; i < n; i++) {
        e[i * n + i] = 1 / s[i];
        f[i] = v[i] / s[i];
    }
    if (gritstrut_lsei(n, m, n, p, c, m * n, zeros, m, e, n * n, f, n, a, p * n, b, p, first, n, weights, m + p, &place, w, ROOM, iw, PLACES))
        return -1;
    gritstrut_certify(n, m, p, v, n, s, n, c, m * n, a, p * n, b, p, first, n, weights, m + p, &bound, &place, w, ROOM, iw, PLACES);
    return bound;
}

/* Meters whose last m each close one balance, with zero as the floor of each. */
static void draw_plant(size_t n, size_t m) {
    memset(c, 0, sizeof c);
    memset(a, 0, sizeof a);
    for (size_t i = 0; i < n; i++) {
        v[i] = floor(500 + 4000 * share());
        s[i] = 5 + 40 * share();
        a[i * n + i] = 1;
        b[i] = 0;
    }
    for (size_t j = 0; j < m; j++) {
        double sum = 0;
        for (size_t i = 0; i < n - m; i++) {
            c[j * n + i] = share() < 0.5 ? 0 : share() < 0.5 ? 1 : -1;
            sum += c[j * n + i] * v[i];
        }
        c[j * n + n - m + j] = sum < 0 ? 1 : -1;
        v[n - m + j] = floor(fabs(sum) + 20 * (share() - 0.5) + 20);
    }
    for (size_t i = 0; i < n; i++) {
        before[i] = 0;
        after[i] = (uint32_t)v[i];
    }
}

/* Any values, balances and limits, of which some lie far away. With as many balances as values these alone decide, so the spreads
   are made so small that rounding leaves the first working uncertain. */
static void draw_any(size_t n, size_t m, size_t p) {
    for (size_t i = 0; i < n; i++) {
        v[i] = 2000 * (share() - 0.5);
        s[i] = (0.01 + share()) * (m < n ? 1 : 1e-6);
    }
    for (size_t i = 0; i < m * n; i++) c[i] = share() < 0.5 ? 0 : 2 * share() - 1;
    for (size_t i = 0; i < p * n; i++) a[i] = 2 * share() - 1;
    for (size_t k = 0; k < p; k++) b[k] = -200 * share();
}

static uint32_t settle(size_t n, size_t m, size_t p, double *bound) {
    uint32_t place;
    return gritstrut_settle(n, m, p, v, n, s, n, c, m * n, a, p * n, b, p, 0.001, x, n, mu, m + p, bound, &place, w, ROOM, iw, PLACES);
}

static uint32_t certify(size_t n, size_t m, size_t p, double *bound) {
    uint32_t place;
    return gritstrut_certify(n, m, p, v, n, s, n, c, m * n, a, p * n, b, p, x, n, mu, m + p, bound, &place, w, ROOM, iw, PLACES);
}

static uint32_t reconcile(size_t n, size_t m) {
    uint32_t place;
    return gritstrut_reconcile(n, m, before, n, after, n, s, n, c, m * n, x, n, named, n, &place, w, ROOM, iw, PLACES);
}

static int by_size(const void *p, const void *q) {
    double d = *(const double *)p - *(const double *)q;
    return d < 0 ? -1 : d > 0;
}

static void tell(const char *name, size_t n, size_t m, size_t p, double *times) {
    qsort(times, DAYS, sizeof *times, by_size);
    printf("%-10s %2zu/%2zu/%2zu %9.2f %9.2f\n", name, n, m, p, times[DAYS / 2], times[DAYS - 1]);
}

#define LEAST(best, call)                          \
    do {                                           \
        best = 1e300;                              \
        for (int r = 0; r < CALLS; r++) {          \
            double t = now();                      \
            call;                                  \
            t = now() - t;                         \
            if (t < best) best = t;                \
        }                                          \
    } while (0)

int main(void) {
    static double days[3][DAYS];
    double bound;
    printf("%-10s %8s %9s %9s\n", "call", "size", "median us", "longest");
    for (int k = 0; k < DAYS;) {
        draw_plant(12, 4);
        double near = first_bound(12, 4, 12);
        if (near < 0 || near > 0x1p-10 || reconcile(12, 4) || settle(12, 4, 12, &bound) || memcmp(x, first, sizeof(double[12]))) continue;
        LEAST(days[0][k], reconcile(12, 4));
        LEAST(days[1][k], settle(12, 4, 12, &bound));
        LEAST(days[2][k], certify(12, 4, 12, &bound));
        k++;
    }
    double ratio[DAYS];
    for (int k = 0; k < DAYS; k++) ratio[k] = days[1][k] / days[0][k];
    qsort(ratio, DAYS, sizeof *ratio, by_size);
    tell("reconcile", 12, 4, 12, days[0]);
    tell("settle", 12, 4, 12, days[1]);
    tell("certify", 12, 4, 12, days[2]);
    printf("settle over reconcile, day by day: %.2f in the middle, at most %.2f\n", ratio[DAYS / 2], ratio[DAYS - 1]);
    for (size_t m = 12; m <= 16; m += 4) {
        int drawn = 0;
        for (int k = 0; k < DAYS;) {
            draw_any(16, m, 48);
            drawn++;
            double near = first_bound(16, m, 48);
            if (near <= 0x1p-10 || settle(16, m, 48, &bound)) continue;
            LEAST(days[0][k], settle(16, m, 48, &bound));
            LEAST(days[1][k], certify(16, m, 48, &bound));
            k++;
        }
        tell("settle", 16, m, 48, days[0]);
        tell("certify", 16, m, 48, days[1]);
        printf("of %d days drawn\n", drawn);
    }
    return 0;
}
