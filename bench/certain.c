/* What an operation on intervals takes, and a bound, beside the same sums in plain doubles.

       gcc -O2 bench/certain.c $(oracle/certain/certain.py build) -lm -o target/certain && target/certain

   The library is the probe of oracle/certain: the proved crates behind C functions. Each figure is the least of 200 runs, in
   nanoseconds a call; a run makes the calls one after the other, each on what the last one gave, but for the bounds. */
#include <math.h>
#include <stddef.h>
#include <stdio.h>
#include <string.h>
#include <time.h>

double probe_next_up(double), probe_add_up(double, double), probe_mul_up(double, double), probe_root_up(double);
void probe_add(double, double, double, double, double *, size_t), probe_mul(double, double, double, double, double *, size_t);
void probe_product(double, double, double *, size_t);
void probe_dot(const double *, size_t, const double *, size_t, double *, size_t);
double probe_plain_dot(const double *, size_t, const double *, size_t);
#define DAY size_t, size_t, size_t, const double *, size_t, const double *, size_t, const double *, size_t, const double *, size_t, const double *, size_t, const double *, size_t, const double *, size_t, const double *, size_t
double probe_bound(DAY);
unsigned probe_kept(size_t, size_t, size_t, const double *, size_t, const double *, size_t, const double *, size_t, const double *, size_t, double);

enum { RUNS = 200 };
static double v[16], s[16], c[256], a[768], b[48], x[16], y[16], z[48], sink;

static double now(void) {
    struct timespec t;
    clock_gettime(CLOCK_MONOTONIC, &t);
    return 1e9 * t.tv_sec + t.tv_nsec;
}

/* The bound's sums in doubles, rounded as they come. */
static double plain(size_t n, size_t m, size_t p) {
    double fit = 0, open = 0, slack = 0;
    for (size_t i = 0; i < n; i++) {
        double g = 0, h = 0;
        for (size_t j = 0; j < m; j++) g += c[j * n + i] * y[j];
        for (size_t k = 0; k < p; k++) h += a[k * n + i] * z[k];
        double u = fabs((x[i] - v[i]) - s[i] * s[i] * (g + h)) / s[i];
        fit += u * u;
    }
    for (size_t j = 0; j < m; j++) {
        double r = 0;
        for (size_t i = 0; i < n; i++) r += c[j * n + i] * x[i];
        open += fabs(y[j]) * fabs(r);
    }
    for (size_t k = 0; k < p; k++) {
        double r = 0;
        for (size_t i = 0; i < n; i++) r += a[k * n + i] * x[i];
        double over = r - b[k];
        slack += z[k] * (over > 0 ? over : 0);
    }
    return sqrt(4 * (fit + (2 * open + slack)));
}

static void day(size_t n, size_t m, size_t p) {
    for (size_t i = 0; i < n; i++) {
        v[i] = 1000 + 17 * (double)i;
        s[i] = 5 + (double)i;
        x[i] = v[i] + 0.25 * (double)(i % 3);
    }
    for (size_t j = 0; j < m; j++) {
        y[j] = 0.01 * (double)(j + 1);
        for (size_t i = 0; i < n; i++) c[j * n + i] = (double)((int)((i + j) % 3) - 1);
    }
    for (size_t k = 0; k < p; k++) {
        z[k] = k % 4 ? 0 : 0.001;
        b[k] = -10;
        for (size_t i = 0; i < n; i++) a[k * n + i] = i == k % n;
    }
}

#define TIMED(name, times, call) do { \
    double best = INFINITY; \
    for (int run = 0; run < RUNS; run++) { \
        double start = now(); \
        for (int t = 0; t < times; t++) { call; } \
        double took = (now() - start) / times; \
        if (took < best) best = took; \
    } \
    printf("%-44s %10.1f\n", name, best); \
} while (0)

static void bounds(size_t n, size_t m, size_t p) {
    char name[80];
    day(n, m, p);
    snprintf(name, sizeof name, "bound %zu/%zu/%zu", n, m, p);
    TIMED(name, 20, sink += probe_bound(n, m, p, v, n, s, n, c, m * n, a, p * n, b, p, x, n, y, m, z, p));
    snprintf(name, sizeof name, "kept %zu/%zu/%zu, all within", n, m, p);
    TIMED(name, 20, sink += probe_kept(n, m, p, c, m * n, a, p * n, b, p, x, n, 1e9));
    snprintf(name, sizeof name, "the bound's sums in plain doubles %zu/%zu/%zu", n, m, p);
    TIMED(name, 20, sink += plain(n, m, p));
}

int main(void) {
    double e[2] = {1, 1}, w = 1;
    printf("%-44s %10s\n", "call", "ns");
    TIMED("next_up", 1000, w = probe_next_up(w));
    TIMED("add_up", 1000, w = probe_add_up(w, 0.5));
    w = 1;
    TIMED("mul_up", 1000, w = probe_mul_up(w, 0.9999));
    w = 2;
    TIMED("root_up", 1000, w = probe_root_up(w));
    TIMED("Interval::add", 1000, probe_add(e[0], e[1], 0.5, 0.5, e, 2));
    e[0] = e[1] = 1;
    TIMED("Interval::mul", 1000, probe_mul(e[0], e[1], 0.999, 0.9999, e, 2));
    TIMED("Interval::product", 1000, probe_product(w, 0.75, e, 2));
    w = 1;
    TIMED("a plain sum behind a call", 1000, w = probe_plain_dot(&w, 1, &w, 1));
    day(16, 0, 0);
    TIMED("dot of 16", 100, probe_dot(v, 16, x, 16, e, 2));
    TIMED("plain dot of 16", 100, sink += probe_plain_dot(v, 16, x, 16));
    bounds(12, 4, 12);
    bounds(16, 16, 48);
    return sink == 1.5;
}
