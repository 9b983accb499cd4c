/* Gritstrut: constrained least squares, every function proved.
 *
 * Link with libgritstrut.a or libgritstrut.so (README.md, "From C, Rust and Python").
 * gritstrut_easy.h has these functions with structs in the place of their lists of arguments.
 *
 * For all functions:
 *
 * - No heap, no globals, no locks: they are re-entrant, and two threads may call them at once
 *   with buffers of their own. They need the two workspaces, stack (under 4 KiB was measured for
 *   a step, under 5 KiB for settled volumes, under 7 KiB for a search) and, of the C library,
 *   memset, memmove and memcpy alone.
 * - A slice is a pointer and then its length in entries. Matrices are dense and row-major: entry
 *   (i, j) of a matrix of n columns is at i * n + j.
 * - What the caller must see to, since no function can test it: every pointer is not null, aligned
 *   for its type and valid for the length passed with it (a length of 0 goes with any pointer that
 *   is not null and is aligned); a slice that is written overlaps no other slice of the call; and
 *   the pointers of single results (rank, rounds, factorings, place, bound, relaxation, tally,
 *   misfit, finding, kept_bytes, meters, written, count) are distinct and overlap nothing. The
 *   processor rounds to nearest and keeps subnormal numbers, as a C program begins (some that are
 *   linked with -ffast-math do not).
 *   Everything else is taken: any size and length, and any bit pattern as a double, NaN and
 *   infinities too.
 * - w is a workspace of at least GRITSTRUT_FLOATS doubles (64 KiB) and iw one of at least
 *   GRITSTRUT_WORDS uint32_t (2 KiB). What they hold before a call does not matter.
 * - The result is a number of the table below. Tests are made in the order 1, 2, 3, 4, 14, 10, 15,
 *   16, 18, 17, 20, 19; of a day's meters 12 and 13 come after 3, the lowest meter first. 5, 6, 7,
 *   8 and 11 are of the arithmetic, which comes after them; 17 may be of it too.
 *
 *     number                                 outputs      workspaces
 *     0  GRITSTRUT_DONE                      all written  first 8192 and 512 entries zero
 *     1  GRITSTRUT_SIZE: a size (or k)       untouched    untouched
 *        that is not allowed
 *     2  GRITSTRUT_LENGTH: a length that     untouched    untouched
 *        is not exactly right
 *     3  GRITSTRUT_ROOM: a workspace that    untouched    untouched
 *        is too short
 *     4  GRITSTRUT_KIND: a kind other than   untouched    untouched
 *        0, 1 and 2
 *     5  GRITSTRUT_DEFICIENT: the rank of    untouched    first 8192 and 512 entries zero
 *        E too low
 *     6  GRITSTRUT_INFEASIBLE                untouched    first 8192 and 512 entries zero
 *     7  GRITSTRUT_CAPPED: NNLS reached its  untouched    first 8192 and 512 entries zero
 *        limit of rounds
 *     8  GRITSTRUT_PIVOT: a Cholesky pivot   untouched    first 8192 and 512 entries zero
 *        that is not positive and finite
 *     10 GRITSTRUT_TOLERANCE: a tolerance    untouched    untouched
 *        that is NaN or below zero
 *     11 GRITSTRUT_DEPENDENT: the rank of    untouched    first 8192 and 512 entries zero
 *        the equalities too low
 *     12 GRITSTRUT_TOTALISER: a reading over untouched    untouched
 *        999,999; of gritstrut_suspect and
 *        of settled volumes a
 *        value that is not finite
 *     13 GRITSTRUT_SPREAD: a spread that is  untouched    untouched
 *        not finite and positive
 *     14 GRITSTRUT_WIDTH: a band's width     untouched    untouched
 *        that is NaN, infinite or below
 *        zero
 *     15 GRITSTRUT_BOUND: a bound that is    untouched    untouched
 *        NaN, a lower one of +infinity, an
 *        upper one of -infinity (not of the
 *        step that is not strict); of
 *        settled volumes a least that is not
 *        finite
 *     16 GRITSTRUT_CROSSED: a lower bound    untouched    untouched
 *        above its upper one (of a search)
 *     17 GRITSTRUT_NONFINITE: a number that  the machine  first 8192 and 512 entries zero
 *        is not finite has ended a search    written
 *     18 GRITSTRUT_UNASKED: a search is told untouched    untouched
 *        an answer where no question stands
 *     19 GRITSTRUT_OUTPUT: an output that is untouched    untouched
 *        too short for the file
 *     20 GRITSTRUT_TRIANGLE: a factor entry  untouched    untouched
 *        above the diagonal whose bits are
 *        not those of +0
 *
 *   Zero is +0. Untouched means the same bits. (Of an entry that is a NaN it is proved that it
 *   stays a NaN; that its bits stay is compared, not proved: docs/TRUST.md.) Entries of a
 *   workspace past the first 8192 and 512 never change. Inputs never change, except b under
 *   gritstrut_update and gritstrut_packed_update.
 * - Single results are stored through their pointers only where the number is 0; but a place only
 *   where it is 5, 11, 12 or 13 (and 15, of gritstrut_write_problem, gritstrut_search_begin,
 *   gritstrut_settle and gritstrut_certify), a step's report where it is 0, 5, 6, 7 or 15, and its
 *   tally where it is 0, 5, 6 or 7. Else they are untouched.
 * - A place with 12 and 13 is a meter, with 15 a variable (of settled volumes a limit). With 5
 *   and 11 it says where rank was lost: the index, from 0, of the column of the factored matrix
 *   that stands next after those that could be taken. With 11 the columns are the equalities: if
 *   one was entered twice, and the others are independent and in like units, the place is one of
 *   the two (docs/DIFFERENCES.md, "What a place names", says how far that can be relied on).
 * - Units: the rank is told at any scale, but an answer is right only where the largest entry of
 *   each matrix that is factored is between 1e-137 and 1e153 in magnitude. Outside it may be done,
 *   finite and of the wrong sign (docs/DIFFERENCES.md, "A norm for rank only").
 */
#ifndef GRITSTRUT_H
#define GRITSTRUT_H

#include <stddef.h>
#include <stdint.h>

#ifdef __cplusplus
extern "C" {
#endif

/* The version of this header; the number is 10000 * first + 100 * second + third. */
#define GRITSTRUT_VERSION "0.3.0"
#define GRITSTRUT_VERSION_NUMBER 300

#define GRITSTRUT_FLOATS 8192
#define GRITSTRUT_WORDS 512

#define GRITSTRUT_DONE 0
#define GRITSTRUT_SIZE 1
#define GRITSTRUT_LENGTH 2
#define GRITSTRUT_ROOM 3
#define GRITSTRUT_KIND 4
#define GRITSTRUT_DEFICIENT 5
#define GRITSTRUT_INFEASIBLE 6
#define GRITSTRUT_CAPPED 7
#define GRITSTRUT_PIVOT 8
#define GRITSTRUT_TOLERANCE 10
#define GRITSTRUT_DEPENDENT 11
#define GRITSTRUT_TOTALISER 12
#define GRITSTRUT_SPREAD 13
#define GRITSTRUT_WIDTH 14
#define GRITSTRUT_BOUND 15
#define GRITSTRUT_CROSSED 16
#define GRITSTRUT_NONFINITE 17
#define GRITSTRUT_UNASKED 18
#define GRITSTRUT_OUTPUT 19
#define GRITSTRUT_TRIANGLE 20

/* The place of a stage that has none. */
#define GRITSTRUT_NOWHERE UINT32_MAX

/* The GRITSTRUT_VERSION_NUMBER of the library that was linked: it must be this header's. */
uint32_t gritstrut_version(void);

/* The IEEE 754 square root, to nearest. */
double gritstrut_sqrt(double x);

/* The sum of x, left to right from -0; and its norm, the root of the sum of its squares, worked on
 * entries that a power of two has brought near 1: NaN if one is NaN, else +infinity if one is
 * infinite, and +0 for zeros and for no entries. */
double gritstrut_sum(const double *x, size_t x_len);
double gritstrut_norm(const double *x, size_t x_len);

/* Householder QR with column pivoting of the m by n matrix a: m from 0 to 18, n from 0 to 66.
 * Out: r (m * n), perm (n), u (min(m, n) rows of m), b (min(m, n)), and the rank.
 * Column j of A P is column perm[j] of A. Reflectors past the rank are all +0. */
uint32_t gritstrut_qr(size_t m, size_t n, const double *a, size_t a_len,
                      double *r, size_t r_len, uint32_t *perm, size_t perm_len,
                      double *u, size_t u_len, double *b, size_t b_len, uint32_t *rank,
                      double *w, size_t w_len, uint32_t *iw, size_t iw_len);

/* Nonnegative least squares, min ||A x - b|| with x >= 0, of the m by n matrix a: m from 0 to
 * 18, n from 0 to 66, with k rounds allowed, from 0 to 3n. In: a (m * n), b (m). Out: x (n), and
 * how many rounds and factorings the definition counts (docs/RULES.md, "Nonnegative least
 * squares"): some are counted and not run, since what they come to is known. */
uint32_t gritstrut_nnls(size_t m, size_t n, size_t k, const double *a, size_t a_len,
                        const double *b, size_t b_len, double *x, size_t x_len,
                        uint32_t *rounds, uint32_t *factorings,
                        double *w, size_t w_len, uint32_t *iw, size_t iw_len);

/* LDP, min ||x|| with G x >= h: m rows, from 0 to 66, and n columns, from 0 to 17.
 * In: g (m * n), h (m). Out: x (n), multipliers (m). */
uint32_t gritstrut_ldp(size_t m, size_t n, const double *g, size_t g_len,
                       const double *h, size_t h_len, double *x, size_t x_len,
                       double *multipliers, size_t multipliers_len,
                       double *w, size_t w_len, uint32_t *iw, size_t iw_len);

/* LSI, min ||E x - f|| with G x >= h: n columns, from 0 to 17, me rows of E, from 0 to 17, and mg
 * inequalities, from 0 to 66. In: e (me * n), f (me), g (mg * n), h (mg).
 * Out: x (n), multipliers (mg). place: with 5 the column of E, which is the variable; stored with 5
 * alone. */
uint32_t gritstrut_lsi(size_t n, size_t me, size_t mg, const double *e, size_t e_len,
                       const double *f, size_t f_len, const double *g, size_t g_len,
                       const double *h, size_t h_len, double *x, size_t x_len,
                       double *multipliers, size_t multipliers_len, uint32_t *place,
                       double *w, size_t w_len, uint32_t *iw, size_t iw_len);

/* LSEI, min ||E x - f|| with C x = d and G x >= h: as LSI, with mc equalities, from 0 to 16.
 * In: c (mc * n), d (mc), and as LSI. Out: x (n), multipliers (mc + mg): those of the equalities
 * first. place: with 11 the equality, which is the row of c, from 0; with 5 the column of E in the
 * space that the equalities leave, n - mc columns, which is no variable unless mc is 0; stored with
 * these two alone. More equalities than variables is always 11. */
uint32_t gritstrut_lsei(size_t n, size_t mc, size_t me, size_t mg,
                        const double *c, size_t c_len, const double *d, size_t d_len,
                        const double *e, size_t e_len, const double *f, size_t f_len,
                        const double *g, size_t g_len, const double *h, size_t h_len,
                        double *x, size_t x_len, double *multipliers, size_t multipliers_len,
                        uint32_t *place,
                        double *w, size_t w_len, uint32_t *iw, size_t iw_len);

/* A day's volumes of n meters, from 0 to 16, corrected so that m balances, from 0 to 16, come to
 * zero: the least squares of the corrections, each over its meter's spread, with no volume below
 * zero, as LSEI works them out. Where the balances fix a meter at zero, or one stands twice, that
 * can be far from the least though the balances close (docs/ACCURACY.md, "A day that closes and is
 * wrong"). In: the totaliser readings before and after (n each, 0 to 999,999; the volume between
 * them is after - before, plus 1,000,000 where that is below zero, so a full turn cannot be
 * seen), spreads (n), balances (m * n, a row of coefficients each). Out: volumes (n), and named
 * (n): 1 where the volume is below zero, as rounding can leave it, or NaN, else 0. Volumes are
 * not clipped. After 1, 2 and 3 the meters are tested, the lowest first, each for 12 and then 13.
 * place: the meter with 12 and 13; with 11 the balance, with 5 as LSEI's: the meter if m is 0.
 * docs/MANUAL.md is for the person at the site. */
uint32_t gritstrut_reconcile(size_t n, size_t m, const uint32_t *before, size_t before_len,
                             const uint32_t *after, size_t after_len,
                             const double *spreads, size_t spreads_len,
                             const double *balances, size_t balances_len,
                             double *volumes, size_t volumes_len, uint8_t *named, size_t named_len,
                             uint32_t *place, double *w, size_t w_len, uint32_t *iw, size_t iw_len);

/* A day's volumes that can be signed for, of n values, from 0 to 16, as measured, of any sign,
 * with their spreads, under m balances, from 0 to 16, whose sums are wanted zero, and p limits,
 * from 0 to 48, whose sums are wanted at least `least`: floors as they are, ceilings with their
 * signs changed, a volume's own zero as a row of one 1. In: values (n), spreads (n), balances
 * (m * n), limits (p * n), least (p). Out: settled (n), multipliers (m + p, those of the balances
 * first), and bound: no volumes that close the balances, keep the limits and fit the values as
 * well lie farther than bound spreads from settled in any value, proved over exact numbers;
 * +infinity where nothing is certain.
 * Settled are LSEI's volumes where they are kept, every sum within the tolerance, and their bound
 * is at most 0x1p-10: so an ordinary day has gritstrut_reconcile's, bit for bit. Else they are
 * worked again with the limits that hold as equalities, and the better is taken: one that is kept
 * before one that is not, and of two alike that of the smaller bound. docs/RULES.md, "Settled
 * volumes".
 * After 1, 2 and 3 a tolerance that is NaN or below zero is 10; then value by value 12, not
 * finite, and 13; then limit by limit 15, a least that is not finite; then LSEI's 5, 6, 7 and 11.
 * place: the value with 12 and 13, the limit with 15; with 11 the balance, with 5 as LSEI's. */
uint32_t gritstrut_settle(size_t n, size_t m, size_t p, const double *values, size_t values_len,
                          const double *spreads, size_t spreads_len,
                          const double *balances, size_t balances_len,
                          const double *limits, size_t limits_len,
                          const double *least, size_t least_len, double tolerance,
                          double *settled, size_t settled_len,
                          double *multipliers, size_t multipliers_len,
                          double *bound, uint32_t *place,
                          double *w, size_t w_len, uint32_t *iw, size_t iw_len);

/* The bound of volumes and multipliers from anywhere, settled (n) and multipliers (m + p), which
 * are in: +infinity where one of them is not finite, or a limit's multiplier is below zero. What
 * gritstrut_settle stored gives its bound back. Refused as that, but
 * without 5, 6, 7, 10 and 11. */
uint32_t gritstrut_certify(size_t n, size_t m, size_t p, const double *values, size_t values_len,
                           const double *spreads, size_t spreads_len,
                           const double *balances, size_t balances_len,
                           const double *limits, size_t limits_len,
                           const double *least, size_t least_len,
                           const double *settled, size_t settled_len,
                           const double *multipliers, size_t multipliers_len,
                           double *bound, uint32_t *place,
                           double *w, size_t w_len, uint32_t *iw, size_t iw_len);

/* What the tests find of all meters together. */
typedef struct gritstrut_finding {
    uint32_t freedom;   /* the degrees of freedom: how many balances are independent */
    uint32_t first;     /* the meter of the largest test, the first of equal ones; 0 if none is
                         * checked */
    uint32_t agree;     /* 1 where the meters agree, else 0; 0 where the freedom is 0 */
    uint32_t explained; /* 1 where that one meter explains a disagreement, else 0 */
} gritstrut_finding;

/* The mark of a meter, where the meters disagree. */
enum {
    GRITSTRUT_UNSUSPECTED, /* nothing speaks against it, or it is unchecked */
    GRITSTRUT_SUSPECTED,   /* the square of its test is at most 6 below the largest */
    GRITSTRUT_LOOK_FIRST   /* its test is the largest, or it is not told apart from that meter */
};

/* Which meter may be wrong: the tests of n meters, from 0 to 16, against each other, by m balances,
 * from 0 to 16, as VDI 2048 has them. In: values as measured (n), spreads (n), balances (m * n, a
 * row of coefficients each), still (n): 1 for a meter that stands still, whose value is zero and
 * whose corrected volume is at most 0x1p-20 of its spread; else 0. Out: numbers (3 * n): n shares,
 * then n new spreads, then n tests; groups (n): the lowest meter that is not told apart from this
 * one, or itself; marks (n), as above, all 0 where the meters agree; misfit and finding.
 * A share is what shows in the balances of a meter's error: 0 where no balance sees it (below
 * 0x1p-20 it is unchecked: its test is 0, and no mark names it), 1 where the others determine it. A
 * new spread is that of the corrected volume. A test is the correction over its own deviation; the
 * misfit is the sum of the squares of all corrections in spreads. They agree where the misfit is at
 * most the 95 % limit of chi-square for the freedom and every test is within 3; a NaN disagrees.
 * A meter's error of 4 * spread / sqrt(share) is found at least five days in six; one sound day in
 * twenty disagrees. Limits, as that no volume is below zero, are not seen. docs/RULES.md, "Tests of
 * meters", has all of it. After 1, 2 and 3 the meters are tested, the lowest first, each for 12
 * (its value is not finite) and then 13. place: the meter with 12 and 13, stored with these two
 * alone. */
uint32_t gritstrut_suspect(size_t n, size_t m, const double *values, size_t values_len,
                           const double *spreads, size_t spreads_len,
                           const double *balances, size_t balances_len,
                           const uint8_t *still, size_t still_len,
                           double *numbers, size_t numbers_len,
                           uint32_t *groups, size_t groups_len, uint32_t *marks, size_t marks_len,
                           double *misfit, gritstrut_finding *finding, uint32_t *place,
                           double *w, size_t w_len, uint32_t *iw, size_t iw_len);

/* The approximation B of the Hessian, of dimension n from 1 to 16, square and row-major (n * n).
 * identity writes 1 on the diagonal of b and +0 elsewhere. times writes B v (n) to out. cholesky
 * writes to l the factor of B = L L', reading the lower triangle of b; +0 stands above the
 * diagonal of l. update revises b by the damped BFGS formula from the step s (n) and the change
 * of gradient y (n).
 * These four names, without hessian_, are kept for one version: call those below. */
uint32_t gritstrut_identity(size_t n, double *b, size_t b_len,
                            double *w, size_t w_len, uint32_t *iw, size_t iw_len);
uint32_t gritstrut_times(size_t n, const double *b, size_t b_len, const double *v, size_t v_len,
                         double *out, size_t out_len,
                         double *w, size_t w_len, uint32_t *iw, size_t iw_len);
uint32_t gritstrut_cholesky(size_t n, const double *b, size_t b_len, double *l, size_t l_len,
                            double *w, size_t w_len, uint32_t *iw, size_t iw_len);
uint32_t gritstrut_update(size_t n, double *b, size_t b_len, const double *s, size_t s_len,
                          const double *y, size_t y_len,
                          double *w, size_t w_len, uint32_t *iw, size_t iw_len);

static inline uint32_t gritstrut_hessian_identity(size_t n, double *b, size_t b_len, double *w,
                                                  size_t w_len, uint32_t *iw, size_t iw_len)
{
    return gritstrut_identity(n, b, b_len, w, w_len, iw, iw_len);
}
static inline uint32_t gritstrut_hessian_times(size_t n, const double *b, size_t b_len,
                                               const double *v, size_t v_len, double *out,
                                               size_t out_len, double *w, size_t w_len,
                                               uint32_t *iw, size_t iw_len)
{
    return gritstrut_times(n, b, b_len, v, v_len, out, out_len, w, w_len, iw, iw_len);
}
static inline uint32_t gritstrut_hessian_cholesky(size_t n, const double *b, size_t b_len, double *l,
                                                  size_t l_len, double *w, size_t w_len,
                                                  uint32_t *iw, size_t iw_len)
{
    return gritstrut_cholesky(n, b, b_len, l, l_len, w, w_len, iw, iw_len);
}
static inline uint32_t gritstrut_hessian_update(size_t n, double *b, size_t b_len, const double *s,
                                                size_t s_len, const double *y, size_t y_len,
                                                double *w, size_t w_len, uint32_t *iw, size_t iw_len)
{
    return gritstrut_update(n, b, b_len, s, s_len, y, y_len, w, w_len, iw, iw_len);
}

/* The same with B kept as its lower triangle, row by row: b has n(n + 1)/2 entries, entry (i, j),
 * j <= i, at i(i + 1)/2 + j. Numbers and answers are those of the square form on the square that
 * the triangle stands for. l stays square (n * n), +0 above the diagonal, as the step takes it. */
uint32_t gritstrut_packed_identity(size_t n, double *b, size_t b_len,
                                   double *w, size_t w_len, uint32_t *iw, size_t iw_len);
uint32_t gritstrut_packed_times(size_t n, const double *b, size_t b_len,
                                const double *v, size_t v_len, double *out, size_t out_len,
                                double *w, size_t w_len, uint32_t *iw, size_t iw_len);
uint32_t gritstrut_packed_cholesky(size_t n, const double *b, size_t b_len,
                                   double *l, size_t l_len,
                                   double *w, size_t w_len, uint32_t *iw, size_t iw_len);
uint32_t gritstrut_packed_update(size_t n, double *b, size_t b_len,
                                 const double *s, size_t s_len, const double *y, size_t y_len,
                                 double *w, size_t w_len, uint32_t *iw, size_t iw_len);

/* What becomes of a logger's record: it is kept, or dropped for the first reason that applies. */
enum {
    GRITSTRUT_KEPT,
    GRITSTRUT_SHORT,   /* the last record has fewer than 16 bytes */
    GRITSTRUT_SPARE,   /* a spare byte is not zero */
    GRITSTRUT_METER,   /* the meter is over 15 */
    GRITSTRUT_READING, /* the reading is over 999,999 */
    GRITSTRUT_MINUTE   /* the minute is not later than that of the meter's last kept record */
};

/* Mends a day's logger records of 16 bytes: meter (2), zero (2), minute (4), reading (4), zero
 * (4), little-endian. In: records, of any length; a last one below 16 bytes is short. Out: kept
 * (as long as records), with the sound records in order in its first *kept_bytes, the rest of it
 * untouched; reasons, a byte of the table above for each record, the short one too (the length of
 * records divided by 16, rounded up); totals and rollovers (16 each), by meter: the sum of the
 * volumes between kept neighbours, a reading below the one before it being one rollover of
 * 1,000,000; 0 for a meter without a kept record. *meters has bit i set where meter i has one.
 * The number is 0, or 2. There is no workspace; 512 bytes of state stand on the stack. A call is a
 * whole day: the minutes before it are not known. The command `gritstrut mend` takes files, in
 * pieces. */
uint32_t gritstrut_mend(const uint8_t *records, size_t records_len,
                        uint8_t *kept, size_t kept_len, uint8_t *reasons, size_t reasons_len,
                        uint64_t *totals, size_t totals_len,
                        uint64_t *rollovers, size_t rollovers_len,
                        size_t *kept_bytes, uint32_t *meters);

/* The day's report for a sheet, byte for byte what the program `day` writes (docs/MANUAL.md): the
 * verdict is its first line. `report` has at least GRITSTRUT_DAY_REPORT bytes; the report goes
 * to its front, `count` is how long it is, and the bytes behind it stay. Any bytes are taken as a sheet;
 * what is wrong with them is told in the report.
 *
 * 0 written; 2 `report` is shorter, and nothing is written. It has no workspace, and more stack
 * than the others: of the same work in the program `day` under 96 KiB was measured, over 500 sheets. */
#define GRITSTRUT_DAY_REPORT 81920

uint32_t gritstrut_report(const uint8_t *sheet, size_t sheet_len,
                          uint8_t *report, size_t report_len, size_t *count);

/* The entries of a step's report. A step has two stages: the exact problem, and where that is
 * refused the relaxed one. */
enum {
    GRITSTRUT_EXACT_NUMBER,   /* 0 where the exact problem was solved, else 5, 6, 7 or 11 */
    GRITSTRUT_EXACT_PLACE,    /* with 5 and 11, as LSEI's; else GRITSTRUT_NOWHERE */
    GRITSTRUT_RELAXED_NUMBER, /* 0 where the relaxed one was solved or not tried, else 5, 6 or 7 */
    GRITSTRUT_RELAXED_PLACE,  /* with 5 the variable, n being the relaxation; else NOWHERE */
    GRITSTRUT_ROUNDS,         /* rounds of NNLS in both stages, as gritstrut_nnls counts them: the
                                 one that ends in Capped (7) is not counted */
    GRITSTRUT_FACTORINGS,     /* QR factorings in both stages, of no columns too: at most 25,879 */
    GRITSTRUT_REPORT          /* how many entries a report has */
};

/* What a constraint asks of the step d: of its row a and value c, and of a band's width w. */
enum {
    GRITSTRUT_EQUALITY, /* a'd + c = 0 */
    GRITSTRUT_FLOOR,    /* a'd + c >= 0 */
    GRITSTRUT_BAND      /* 0 <= a'd + c <= w, of which w is at least zero and finite */
};

/* A running tally of the rounds and factorings of steps, as their reports count them: set both
 * counts to 0 at first. A count that would pass the range stays at UINT64_MAX. */
typedef struct gritstrut_tally {
    uint64_t rounds;
    uint64_t factorings;
} gritstrut_tally;

/* Raises a tally by counts from elsewhere; gritstrut_step raises its own. */
void gritstrut_tally_raise(gritstrut_tally *tally, uint64_t rounds, uint64_t factorings);

/* The step d that minimizes d'Bd / 2 + g'd, where B = L L', under m constraints, each of a kind
 * above, and under bounds lower <= d <= upper, where a bound that is not finite is open: a lower
 * +infinity, an upper -infinity and a NaN too, which gritstrut_strict_step refuses.
 * n variables, from 1 to 16; m constraints, from 0 to 16.
 * In: factor L (n * n), gradient g (n), kinds (m), values c (m), widths (m; those of other kinds
 * are not read), jacobian (m * n, a row for each constraint), lower (n), upper (n).
 * Out: d (n), multipliers (m, in constraint order; a band's is its floor's less its ceiling's, so
 * below zero where the ceiling holds), and the relaxation: 0 where the problem was solved as
 * stated, else the share, up to 1, by which its constraints were relaxed: then they need not hold
 * at d. The number is 0, or that of the relaxed stage: 5, 6 or 7.
 * report (GRITSTRUT_REPORT entries, as above) is written with 0, 5, 6 and 7. Look at it even where
 * the number is 0: an exact number of 11 beside a relaxed one of 0 says that a step came out
 * although an equality depends on others, and the exact place which one it is. That place counts
 * the equalities alone: with kinds 1, 0, 0 the place 1 is constraint 2.
 * tally is raised by the report's rounds and factorings with 0, 5, 6 and 7, and stays with 1 to 4
 * and 14; nothing else depends on it. With p exact inequality rows (one of a floor, two of a band,
 * one of each closed side) and q relaxed rows (the same, two of an equality, and two more) a step
 * counts at most 3 + (3p^2 + 4p) + (3q^2 + 4q) factorings.
 * The exact problem reads the whole square of factor, the entries ABOVE the diagonal too: set
 * them to +0, as gritstrut_cholesky does. */
uint32_t gritstrut_step(size_t n, size_t m, const double *factor, size_t factor_len,
                        const double *gradient, size_t gradient_len,
                        const uint8_t *kinds, size_t kinds_len,
                        const double *values, size_t values_len,
                        const double *widths, size_t widths_len,
                        const double *jacobian, size_t jacobian_len,
                        const double *lower, size_t lower_len,
                        const double *upper, size_t upper_len,
                        double *d, size_t d_len, double *multipliers, size_t multipliers_len,
                        double *relaxation, uint32_t *report, size_t report_len,
                        gritstrut_tally *tally,
                        double *w, size_t w_len, uint32_t *iw, size_t iw_len);

/* The strict step: the step, but that a bound that is NaN, a lower bound of +infinity and an upper
 * bound of -infinity are Bound (15), tested after Width (14), and not taken as open; lower -infinity
 * and upper +infinity are open. With 15 report has GRITSTRUT_BOUND in its exact number and the
 * lowest such variable in its exact place, 0 and GRITSTRUT_NOWHERE for the relaxed stage, and
 * counts of 0; nothing else is written, and the tally stays. With every other number all is as the
 * step has it. The record program runs this one. */
uint32_t gritstrut_strict_step(size_t n, size_t m, const double *factor, size_t factor_len,
                               const double *gradient, size_t gradient_len,
                               const uint8_t *kinds, size_t kinds_len,
                               const double *values, size_t values_len,
                               const double *widths, size_t widths_len,
                               const double *jacobian, size_t jacobian_len,
                               const double *lower, size_t lower_len,
                               const double *upper, size_t upper_len,
                               double *d, size_t d_len,
                               double *multipliers, size_t multipliers_len,
                               double *relaxation, uint32_t *report, size_t report_len,
                               gritstrut_tally *tally,
                               double *w, size_t w_len, uint32_t *iw, size_t iw_len);

/* The entries of a verdict. */
enum {
    GRITSTRUT_TEST,   /* 0: yes; else the first failed test: 1 stationarity, 2 an equality's
                       * residual, 3 a violation, 4 a multiplier below zero, 5 a product of
                       * multiplier and margin */
    GRITSTRUT_PART,   /* what the index counts, as below; 0 with yes */
    GRITSTRUT_INDEX,  /* the row on which it failed first; 0 with yes */
    GRITSTRUT_VERDICT /* how many entries a verdict has */
};
enum {
    GRITSTRUT_VARIABLE,   /* a variable's stationarity */
    GRITSTRUT_CONSTRAINT, /* an equality, a floor, or a band's floor: the constraint's index */
    GRITSTRUT_CEILING,    /* a band's ceiling: the constraint's index */
    GRITSTRUT_LOWER,      /* a variable's lower side */
    GRITSTRUT_UPPER       /* a variable's upper side */
};

/* Whether a step is plausible, wherever it comes from: five tests, and the first that fails, with
 * its row. In: the problem as gritstrut_step takes it, but only the lower triangle of factor is
 * read; the step d (n); multipliers (m), and those of the lower and the upper sides (n each, not
 * read where a side is open); and the tolerance, which admits its own value. Out: verdict
 * (GRITSTRUT_VERDICT entries). docs/RULES.md, "The check", has the tests.
 * gritstrut_step gives no multipliers of sides: examples/meters.c shows how they follow from its
 * slopes; or give each bound as a floor, whose multiplier it does give. */
uint32_t gritstrut_check(size_t n, size_t m, const double *factor, size_t factor_len,
                         const double *gradient, size_t gradient_len,
                         const uint8_t *kinds, size_t kinds_len,
                         const double *values, size_t values_len,
                         const double *widths, size_t widths_len,
                         const double *jacobian, size_t jacobian_len,
                         const double *lower, size_t lower_len,
                         const double *upper, size_t upper_len,
                         const double *d, size_t d_len,
                         const double *multipliers, size_t multipliers_len,
                         const double *lower_multipliers, size_t lower_multipliers_len,
                         const double *upper_multipliers, size_t upper_multipliers_len,
                         double tolerance, uint32_t *verdict, size_t verdict_len,
                         double *w, size_t w_len, uint32_t *iw, size_t iw_len);

/* The longest problem file: 473 records of 16 bytes. */
#define GRITSTRUT_FILE 7568

/* Writes a problem as the record program's input, so that the step can be run again elsewhere from
 * the same bits. In: the problem as gritstrut_step takes it, its numbers as bits (uint64_t: copy
 * doubles there by memcpy, as gritstrut_easy.h does), so that a NaN's payload is part of the problem
 * and of the file. The widths of constraints that are no bands are not: they are not read. Out: the
 * file in the first *written bytes of out, the rest of it untouched; out of GRITSTRUT_FILE bytes is
 * always long enough. place: the variable with 15. The records stand in the order D, L, G, E or I
 * with its W directly after it, A, B, T, each by row then column; an entry whose bits are those of
 * a missing one (1 on the factor's diagonal, +0, -infinity as lower, +infinity as upper bound) is
 * left out, a constraint's value and a band's width never. The workspaces are not needed for it,
 * but lent and left as with the step. */
uint32_t gritstrut_write_problem(size_t n, size_t m, const uint64_t *factor, size_t factor_len,
                                 const uint64_t *gradient, size_t gradient_len,
                                 const uint8_t *kinds, size_t kinds_len,
                                 const uint64_t *values, size_t values_len,
                                 const uint64_t *widths, size_t widths_len,
                                 const uint64_t *jacobian, size_t jacobian_len,
                                 const uint64_t *lower, size_t lower_len,
                                 const uint64_t *upper, size_t upper_len,
                                 uint8_t *out, size_t out_len, size_t *written, uint32_t *place,
                                 double *w, size_t w_len, uint32_t *iw, size_t iw_len);

/* The search: the whole iteration around the step, as a machine that asks and is told. It looks for
 * the x of least f(x) under constraints c_j(x) = 0 or c_j(x) >= 0 and bounds lower <= x <= upper,
 * and ends where f is least nearby. (NLopt's inequalities are c_j(x) <= 0: change their signs.) It
 * keeps all that it knows in two slices of the caller's, machine and words, and nothing else: they
 * may be stored, copied and gone on with elsewhere. docs/RULES.md, "The search", has its rules, and
 * examples/valves.c is one. */
#define GRITSTRUT_SEARCH_MACHINE 1024 /* the length of machine, in doubles */
#define GRITSTRUT_SEARCH_WORDS 32     /* the length of words, in uint32_t */
#define GRITSTRUT_SEARCH_BUDGET 10000 /* the most objective values that a run may cost */

/* Where in machine the report stands, at the end of a run and before: the last accepted point (n),
 * which is the start, clipped into its bounds, before any other is; the multipliers of the last
 * step (m), +0 before the first; and the values at that point (1 + m, the objective first), NaN
 * before the start's are told. And, while a question stands, the point that it asks about (n). */
#define GRITSTRUT_SEARCH_X 48
#define GRITSTRUT_SEARCH_MULTIPLIERS 96
#define GRITSTRUT_SEARCH_VALUES 128
#define GRITSTRUT_SEARCH_POINT 976

/* Where in words stand: what is asked, or how the run has ended (below); what is left of the budget
 * when the question that stands is answered; of a question for one value, how many functions come
 * after the one that is asked for; n; and m. */
#define GRITSTRUT_SEARCH_ASKED 0
#define GRITSTRUT_SEARCH_LEFT 1
#define GRITSTRUT_SEARCH_AFTER 5
#define GRITSTRUT_SEARCH_VARIABLES 8
#define GRITSTRUT_SEARCH_CONSTRAINTS 9

/* The function that a question for one value asks for: 0 is the objective, 1 + j constraint j. */
#define GRITSTRUT_SEARCH_FUNCTION(words) \
    ((words)[GRITSTRUT_SEARCH_CONSTRAINTS] - (words)[GRITSTRUT_SEARCH_AFTER])

/* What words[GRITSTRUT_SEARCH_ASKED] says: the question that stands, or how the run has ended. 0 is
 * no machine. All values are 1 + m numbers, the objective and then each constraint; all slopes are
 * 1 + m rows of n, the gradient first; one value is one number. */
enum {
    GRITSTRUT_SEARCH_START = 1,  /* all values at the start */
    GRITSTRUT_SEARCH_TRIAL,      /* all values at a trial point */
    GRITSTRUT_SEARCH_SLOPES,     /* all slopes */
    GRITSTRUT_SEARCH_RAISED,     /* one value, a coordinate raised */
    GRITSTRUT_SEARCH_LOWERED,    /* one value, a coordinate lowered */
    GRITSTRUT_SEARCH_CONVERGED,  /* ended: within ftol */
    GRITSTRUT_SEARCH_INFEASIBLE, /* ended: no step, or one that relaxes all */
    GRITSTRUT_SEARCH_EXHAUSTED,  /* ended: an objective value is due, and none is left */
    GRITSTRUT_SEARCH_NONFINITE   /* ended: a number that is not finite */
};

/* Where slopes come from: the scheme of a search. */
enum {
    GRITSTRUT_SEARCH_TOLD,    /* they are asked for */
    GRITSTRUT_SEARCH_FORWARD, /* forward differences, of single values that are asked for */
    GRITSTRUT_SEARCH_CENTRAL  /* central ones */
};

/* Begins a search of n variables, from 1 to 16, and m constraints, from 0 to 16. In: kinds (m; 0 an
 * equality, 1 a floor: there are no bands), lower and upper (n each; -infinity and +infinity are
 * open), the start x (n), ftol, the budget, from 0 to GRITSTRUT_SEARCH_BUDGET, and the scheme. Out:
 * machine and words, whole: what they held before does not matter. After 1 to 4 comes 10 for ftol,
 * then 15 with the lowest variable in place, then 16. With 17 the start is not finite: the machine
 * is written, and its run is over. With 0 look at words[GRITSTRUT_SEARCH_ASKED]. */
uint32_t gritstrut_search_begin(size_t n, size_t m, const uint8_t *kinds, size_t kinds_len,
                                const double *lower, size_t lower_len,
                                const double *upper, size_t upper_len,
                                const double *x, size_t x_len,
                                double ftol, uint32_t budget, uint32_t scheme,
                                double *machine, size_t machine_len,
                                uint32_t *words, size_t words_len, uint32_t *place,
                                double *w, size_t w_len, uint32_t *iw, size_t iw_len);

/* Tells a search the answer to its question, and it goes on to the next one, or ends. In: told, as
 * many numbers as the question wants. In and out: machine and words. 2 is also for an answer of
 * another length; 18 where no question stands, because the run has ended or words are no machine,
 * as also where a word that another hand wrote is out of its range. With 17 a number is not finite:
 * the machine is written, and its run is over. That is so at a trial too: no shorter step is tried
 * where a function has no value, so let the bounds keep x where all have one. With 0 look at
 * words[GRITSTRUT_SEARCH_ASKED]. */
uint32_t gritstrut_search_tell(const double *told, size_t told_len,
                               double *machine, size_t machine_len,
                               uint32_t *words, size_t words_len,
                               double *w, size_t w_len, uint32_t *iw, size_t iw_len);

#ifdef __cplusplus
}
#endif

#endif
