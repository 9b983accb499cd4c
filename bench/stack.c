/* Measures the stack that steps and searches take: each runs in a thread on a stack that was
 * painted before, and what is not paint afterwards was used. The caller's frame and its arguments are
 * counted. Linked statically, since a dynamic linker's first look for memset goes deeper.
 *
 *     cc -static -std=gnu11 -O2 -Wall -Wextra -pthread -I include bench/stack.c LIBRARY -o target/stack && target/stack
 */
#define _GNU_SOURCE
#include <math.h>
#include <pthread.h>
#include <stdint.h>
#include <stdio.h>
#include <stdlib.h>
#include <string.h>

#include "gritstrut.h"

#define ROOM (1u << 20)
#define PAINT 0xa5
/* Left unpainted, for the frame that paints; a step goes deeper. */
#define MARGIN 256

/* Opposed: bounds around zero, and a second constraint that rules out the first. */
enum bounds { OPEN, AROUND, CROSSED, OPPOSED };

/* A step of the largest sizes, and what it answered. */
struct step {
    size_t n, m;
    double factor[256], gradient[16], values[16], widths[16], jacobian[256], lower[16], upper[16];
    uint8_t kinds[16];
    double d[16], multipliers[16], relaxation;
    uint32_t report[GRITSTRUT_REPORT];
    uint32_t number;
};

/* What is called on the painted stack, with what, and how many bytes that took. */
struct measured {
    void (*call)(void *);
    void *given;
    size_t bytes;
};

static unsigned char stack[ROOM] __attribute__((aligned(4096)));

static double workspace[GRITSTRUT_FLOATS];
static uint32_t words[GRITSTRUT_WORDS];
static gritstrut_tally tally;
static uint64_t state = 88172645463325252u;

/* From -1 to 1. */
static double draw(void)
{
    state ^= state << 13;
    state ^= state >> 7;
    state ^= state << 17;
    return (double) (int64_t) (state * 2685821657736338717u) / 9223372036854775808.0;
}

static void fill(struct step *p, size_t n, size_t m, enum bounds bounds)
{
    memset(p, 0, sizeof *p);
    p->n = n;
    p->m = m;
    for (size_t i = 0; i < n; i++) {
        for (size_t j = 0; j < i; j++)
            p->factor[i * n + j] = 0.3 * draw();
        p->factor[i * n + i] = 1 + 0.5 * draw();
        p->gradient[i] = draw();
        double side = 0.2 + 0.2 * fabs(draw());
        p->lower[i] = bounds == OPEN ? -INFINITY : bounds == CROSSED ? side : -side;
        p->upper[i] = bounds == OPEN ? INFINITY : bounds == CROSSED ? -side : side;
    }
    for (size_t j = 0; j < m; j++) {
        p->kinds[j] = j % 4 != 0;
        p->values[j] = 0.1 * draw();
    }
    for (size_t k = 0; k < m * n; k++)
        p->jacobian[k] = draw();
    if (bounds == OPPOSED) {
        for (size_t i = 0; i < n; i++)
            p->jacobian[n + i] = -p->jacobian[i];
        p->values[1] = -p->values[0] - 0.1;
    }
}

static void call_step(void *given)
{
    struct step *p = given;
    size_t n = p->n, m = p->m;
    p->number = gritstrut_step(n, m, p->factor, n * n, p->gradient, n, p->kinds, m, p->values, m,
                               p->widths, m, p->jacobian, m * n, p->lower, n, p->upper, n,
                               p->d, n, p->multipliers, m, &p->relaxation, p->report,
                               GRITSTRUT_REPORT, &tally, workspace, GRITSTRUT_FLOATS, words, GRITSTRUT_WORDS);
}

/* A whole search, from zero, for the point nearest to one whose sum is at least 1, .., m. */
struct search {
    size_t n, m;
    uint32_t scheme, ended;
};

static double machine[GRITSTRUT_SEARCH_MACHINE];
static uint32_t machine_words[GRITSTRUT_SEARCH_WORDS];
static double told[17 * 16];

static double value(size_t n, size_t function)
{
    const double *x = machine + GRITSTRUT_SEARCH_POINT;
    double sum = 0;
    for (size_t i = 0; i < n; i++)
        sum += function ? x[i] : (x[i] - 1) * (x[i] - 1);
    return function ? sum - (double) function : sum;
}

/* Answers the question that stands, and says with how many numbers. */
static size_t answer(size_t n, size_t m)
{
    uint32_t asked = machine_words[0];
    if (asked > GRITSTRUT_SEARCH_SLOPES) {
        told[0] = value(n, m - machine_words[5]);
        return 1;
    }
    if (asked < GRITSTRUT_SEARCH_SLOPES) {
        for (size_t j = 0; j <= m; j++)
            told[j] = value(n, j);
        return m + 1;
    }
    for (size_t k = 0; k < (m + 1) * n; k++)
        told[k] = k < n ? 2 * (machine[GRITSTRUT_SEARCH_POINT + k] - 1) : 1;
    return (m + 1) * n;
}

static void call_search(void *given)
{
    struct search *p = given;
    static const double lower[16], upper[16] = {2, 2, 2, 2, 2, 2, 2, 2, 2, 2, 2, 2, 2, 2, 2, 2};
    static const uint8_t kinds[16] = {1, 1, 1, 1, 1, 1, 1, 1, 1, 1, 1, 1, 1, 1, 1, 1};
    uint32_t place, number = gritstrut_search_begin(
        p->n, p->m, kinds, p->m, lower, p->n, upper, p->n, lower, p->n, 1e-9, 1000, p->scheme,
        machine, GRITSTRUT_SEARCH_MACHINE, machine_words, GRITSTRUT_SEARCH_WORDS, &place,
        workspace, GRITSTRUT_FLOATS, words, GRITSTRUT_WORDS);
    while (number == 0 && machine_words[0] < GRITSTRUT_SEARCH_CONVERGED)
        number = gritstrut_search_tell(told, answer(p->n, p->m), machine, GRITSTRUT_SEARCH_MACHINE,
                                       machine_words, GRITSTRUT_SEARCH_WORDS,
                                       workspace, GRITSTRUT_FLOATS, words, GRITSTRUT_WORDS);
    p->ended = machine_words[0];
}

/* Paints what lies below its own frame, makes the call, and looks how deep the paint is gone. It
 * does both itself: what a thread needs to begin and end may be deeper than a step. */
static void *measure(void *given)
{
    struct measured *p = given;
    unsigned char *here = __builtin_frame_address(0);
    volatile unsigned char *at = stack;
    memset(stack, PAINT, (size_t) (here - stack) - MARGIN);
    p->call(p->given);
    while (*at == PAINT)
        at++;
    p->bytes = (size_t) (here - at);
    return NULL;
}

static size_t bytes_of(void (*call)(void *), void *given)
{
    struct measured p = {call, given, 0};
    pthread_attr_t attributes;
    pthread_t thread;
    pthread_attr_init(&attributes);
    if (pthread_attr_setstack(&attributes, stack, ROOM) != 0 ||
        pthread_create(&thread, &attributes, measure, &p) != 0 || pthread_join(thread, NULL) != 0)
        exit(1);
    return p.bytes;
}

int main(void)
{
    static const struct { size_t n, m; enum bounds bounds; const char *name; } sets[] = {
        {1, 0, OPEN, "1/0, no bounds"}, {4, 3, OPEN, "4/3, no bounds"},
        {16, 16, AROUND, "16/16, all bounds"}, {16, 16, CROSSED, "16/16, crossed"},
        {8, 6, OPPOSED, "8/6, relaxed"},
    };
    size_t most = 0;
    for (size_t k = 0; k < sizeof sets / sizeof *sets; k++) {
        size_t deepest = 0, done = 0, relaxed = 0;
        for (int i = 0; i < 200; i++) {
            struct step p;
            fill(&p, sets[k].n, sets[k].m, sets[k].bounds);
            size_t bytes = bytes_of(call_step, &p);
            deepest = bytes > deepest ? bytes : deepest;
            done += p.number == 0;
            relaxed += p.number == 0 && p.relaxation > 0;
        }
        printf("step %-18s %5zu bytes (200 steps, %zu done, %zu of them relaxed)\n",
               sets[k].name, deepest, done, relaxed);
        most = deepest > most ? deepest : most;
    }
    printf("deepest stack of a step: %zu bytes\n", most);
    for (uint32_t scheme = 0; scheme < 3; scheme++) {
        struct search p = {16, 16, scheme, 0};
        size_t bytes = bytes_of(call_search, &p);
        printf("search 16/16, scheme %u: %5zu bytes, %s\n", (unsigned) scheme, bytes,
               p.ended == GRITSTRUT_SEARCH_CONVERGED ? "converged" : "not converged");
    }
    return 0;
}
