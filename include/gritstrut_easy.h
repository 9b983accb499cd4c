/* Gritstrut for people: structs in the place of lists of arguments.
 *
 * Each function here is a call of one function of gritstrut.h, with the lengths worked out from the
 * sizes, and answers that function's number. Nothing here is in the library: it is compiled with
 * your program, by C99 or C++17, and is not proved (docs/TRUST.md). What a function of the library
 * takes and leaves is said in gritstrut.h.
 *
 * - An input struct has sizes, and pointers to arrays of your own; set it to zeros and fill in what
 *   there is. A pointer to no entries may be NULL, and so may those that are named as optional; any
 *   other NULL is refused by GRITSTRUT_LENGTH.
 * - An answer struct has its arrays inside, as long as the largest sizes ask: entries past your own
 *   sizes are not written. Its place is GRITSTRUT_NOWHERE where there is none, and
 *   gritstrut_place_word says what it counts. An answer is written only as gritstrut.h says.
 * - A gritstrut_workspace is 66 KiB: make it static, or allocate it once. One for each thread. Of
 *   stack under 10 KiB was measured for gritstrut_settle_day, which writes the limits down.
 *
 *     static gritstrut_workspace work;
 *     gritstrut_day day = {0};
 *     gritstrut_settled settled;
 *     day.meters = 4; ...
 *     uint32_t number = gritstrut_settle_day(&day, &settled, &work);
 *     if (number != GRITSTRUT_DONE) puts(gritstrut_message(number));
 */
#ifndef GRITSTRUT_EASY_H
#define GRITSTRUT_EASY_H

#include <math.h>
#include <string.h>

#include "gritstrut.h"

#ifdef __cplusplus
extern "C" {
#endif

/* The largest sizes. */
#define GRITSTRUT_MOST_VARIABLES 16      /* of a step, a search, B; values of a day */
#define GRITSTRUT_MOST_CONSTRAINTS 16    /* of a step and a search; balances of a day */
#define GRITSTRUT_MOST_LIMITS 48         /* of settled volumes */
#define GRITSTRUT_MOST_ROWS 18           /* of NNLS */
#define GRITSTRUT_MOST_COLUMNS 66        /* of NNLS */
#define GRITSTRUT_MOST_UNKNOWNS 17       /* of LSEI; and rows of its E */
#define GRITSTRUT_MOST_EQUALITIES 16     /* of LSEI */
#define GRITSTRUT_MOST_INEQUALITIES 66   /* of LSEI */

/* What every call is lent. */
typedef struct gritstrut_workspace {
    double floats[GRITSTRUT_FLOATS];
    uint32_t words[GRITSTRUT_WORDS];
} gritstrut_workspace;

/* ------------------------------------------------------------------------------ what numbers mean */

/* A number of a call, in words. */
static inline const char *gritstrut_message(uint32_t number)
{
    switch (number) {
    case GRITSTRUT_DONE: return "done";
    case GRITSTRUT_SIZE: return "a size is not allowed";
    case GRITSTRUT_LENGTH: return "an array is missing, or its length is not what the sizes ask";
    case GRITSTRUT_ROOM: return "a workspace is too short";
    case GRITSTRUT_KIND: return "a kind of constraint that there is not";
    case GRITSTRUT_DEFICIENT: return "the unknowns are not determined: E is short of rank";
    case GRITSTRUT_INFEASIBLE: return "the constraints cannot all be met";
    case GRITSTRUT_CAPPED: return "the limit of rounds is reached";
    case GRITSTRUT_PIVOT: return "the matrix has no Cholesky factor";
    case GRITSTRUT_TOLERANCE: return "the tolerance is NaN or below zero";
    case GRITSTRUT_DEPENDENT: return "an equality follows from the others, or contradicts them";
    case GRITSTRUT_TOTALISER: return "a reading is over 999,999, or a value is not finite";
    case GRITSTRUT_SPREAD: return "a spread is not finite and above zero";
    case GRITSTRUT_WIDTH: return "a band's width is NaN, infinite or below zero";
    case GRITSTRUT_BOUND: return "a bound, or a limit's least, means nothing";
    case GRITSTRUT_CROSSED: return "a lower bound is above its upper one";
    case GRITSTRUT_NONFINITE: return "a number that is not finite has ended the search";
    case GRITSTRUT_UNASKED: return "an answer where no question stands";
    case GRITSTRUT_OUTPUT: return "the output is too short for the file";
    case GRITSTRUT_TRIANGLE: return "an entry of the factor above the diagonal is not +0";
    default: return "no number of this library";
    }
}

/* Whose place it is. */
typedef enum gritstrut_operation {
    GRITSTRUT_OF_LSI,
    GRITSTRUT_OF_LSEI,
    GRITSTRUT_OF_RECONCILE,
    GRITSTRUT_OF_SETTLE, /* and certify */
    GRITSTRUT_OF_SUSPECT,
    GRITSTRUT_OF_STEP,
    GRITSTRUT_OF_PROBLEM_FILE,
    GRITSTRUT_OF_SEARCH
} gritstrut_operation;

/* What the place of an operation counts when it has ended with a number, in one or a few words; NULL
 * where there is no place. equalities is how many there are (of a day its balances): with some, a
 * place with 5 names no variable. Of a step the number is that of a stage of its report; its relaxed
 * stage has no equalities, and its variable n is the relaxation. */
static inline const char *gritstrut_place_word(gritstrut_operation operation, uint32_t number,
                                               size_t equalities)
{
    const int is_day = operation == GRITSTRUT_OF_RECONCILE || operation == GRITSTRUT_OF_SETTLE;
    switch (number) {
    case GRITSTRUT_DEFICIENT:
        if (operation > GRITSTRUT_OF_SETTLE && operation != GRITSTRUT_OF_STEP) return NULL;
        if (equalities > 0 && operation != GRITSTRUT_OF_LSI)
            return is_day ? "column of what the balances leave" : "column of what the equalities leave";
        return is_day ? "meter" : "variable";
    case GRITSTRUT_DEPENDENT:
        if (is_day) return "balance";
        return operation == GRITSTRUT_OF_LSEI || operation == GRITSTRUT_OF_STEP ? "equality" : NULL;
    case GRITSTRUT_TOTALISER:
    case GRITSTRUT_SPREAD:
        return is_day || operation == GRITSTRUT_OF_SUSPECT ? "meter" : NULL;
    case GRITSTRUT_BOUND:
        if (operation == GRITSTRUT_OF_SETTLE) return "limit";
        return operation >= GRITSTRUT_OF_STEP ? "variable" : NULL;
    default:
        return NULL;
    }
}

/* --------------------------------------------------------------------------------- inner, shared */

/* Whether an array that has entries is missing. */
static inline int gritstrut_lacks(const void *array, size_t length)
{
    return array == NULL && length > 0;
}

/* An array, or where it has no entries and is NULL one that may be passed. */
static inline const double *gritstrut_given(const double *array, const double *other)
{
    return array != NULL ? array : other;
}

/* -------------------------------------------------------------------------- nonnegative, and LSEI */

/* min ||A x - b|| with x >= 0. rounds 0 allows the most, three for each column. */
typedef struct gritstrut_nnls_problem {
    size_t rows, columns;
    const double *a; /* rows * columns */
    const double *b; /* rows */
    size_t rounds;
} gritstrut_nnls_problem;

typedef struct gritstrut_nnls_answer {
    double x[GRITSTRUT_MOST_COLUMNS];
    uint32_t rounds, factorings;
} gritstrut_nnls_answer;

static inline uint32_t gritstrut_solve_nnls(const gritstrut_nnls_problem *of,
                                            gritstrut_nnls_answer *answer,
                                            gritstrut_workspace *work)
{
    const size_t m = of->rows, n = of->columns;
    const double *none = answer->x;
    if (m > GRITSTRUT_MOST_ROWS || n > GRITSTRUT_MOST_COLUMNS) return GRITSTRUT_SIZE;
    if (gritstrut_lacks(of->a, m * n) || gritstrut_lacks(of->b, m)) return GRITSTRUT_LENGTH;
    return gritstrut_nnls(m, n, of->rounds == 0 ? 3 * n : of->rounds, gritstrut_given(of->a, none),
                          m * n, gritstrut_given(of->b, none), m, answer->x, n, &answer->rounds,
                          &answer->factorings, work->floats, GRITSTRUT_FLOATS, work->words,
                          GRITSTRUT_WORDS);
}

/* min ||E x - f|| with C x = d and G x >= h. */
typedef struct gritstrut_lsei_problem {
    size_t unknowns, equalities, rows, inequalities;
    const double *c, *d; /* equalities * unknowns, equalities */
    const double *e, *f; /* rows * unknowns, rows */
    const double *g, *h; /* inequalities * unknowns, inequalities */
} gritstrut_lsei_problem;

typedef struct gritstrut_lsei_answer {
    double x[GRITSTRUT_MOST_UNKNOWNS];
    double multipliers[GRITSTRUT_MOST_EQUALITIES + GRITSTRUT_MOST_INEQUALITIES]; /* equalities' first */
    uint32_t place;
} gritstrut_lsei_answer;

static inline uint32_t gritstrut_solve_lsei(const gritstrut_lsei_problem *of,
                                            gritstrut_lsei_answer *answer,
                                            gritstrut_workspace *work)
{
    const size_t n = of->unknowns, mc = of->equalities, me = of->rows, mg = of->inequalities;
    const double *none = answer->x;
    answer->place = GRITSTRUT_NOWHERE;
    if (n > GRITSTRUT_MOST_UNKNOWNS || mc > GRITSTRUT_MOST_EQUALITIES || me > GRITSTRUT_MOST_UNKNOWNS ||
        mg > GRITSTRUT_MOST_INEQUALITIES)
        return GRITSTRUT_SIZE;
    if (gritstrut_lacks(of->c, mc * n) || gritstrut_lacks(of->d, mc) ||
        gritstrut_lacks(of->e, me * n) || gritstrut_lacks(of->f, me) ||
        gritstrut_lacks(of->g, mg * n) || gritstrut_lacks(of->h, mg))
        return GRITSTRUT_LENGTH;
    return gritstrut_lsei(n, mc, me, mg, gritstrut_given(of->c, none), mc * n,
                          gritstrut_given(of->d, none), mc, gritstrut_given(of->e, none), me * n,
                          gritstrut_given(of->f, none), me, gritstrut_given(of->g, none), mg * n,
                          gritstrut_given(of->h, none), mg, answer->x, n, answer->multipliers,
                          mc + mg, &answer->place, work->floats, GRITSTRUT_FLOATS, work->words,
                          GRITSTRUT_WORDS);
}

/* --------------------------------------------------------------------------------------- the day */

/* A day by totaliser readings. */
typedef struct gritstrut_readings {
    size_t meters, balances;
    const uint32_t *before, *after; /* meters each, 0 to 999,999 */
    const double *spreads;          /* meters */
    const double *balance_rows;     /* balances * meters */
} gritstrut_readings;

typedef struct gritstrut_reconciled {
    double volumes[GRITSTRUT_MOST_VARIABLES];
    uint8_t named[GRITSTRUT_MOST_VARIABLES]; /* 1 for a meter to look at */
    uint32_t place;
} gritstrut_reconciled;

static inline uint32_t gritstrut_reconcile_readings(const gritstrut_readings *of,
                                                    gritstrut_reconciled *answer,
                                                    gritstrut_workspace *work)
{
    const size_t n = of->meters, m = of->balances;
    const double *none = answer->volumes;
    const uint32_t *no_reading = &answer->place;
    answer->place = GRITSTRUT_NOWHERE;
    if (n > GRITSTRUT_MOST_VARIABLES || m > GRITSTRUT_MOST_CONSTRAINTS) return GRITSTRUT_SIZE;
    if (gritstrut_lacks(of->before, n) || gritstrut_lacks(of->after, n) ||
        gritstrut_lacks(of->spreads, n) || gritstrut_lacks(of->balance_rows, m * n))
        return GRITSTRUT_LENGTH;
    return gritstrut_reconcile(n, m, n > 0 ? of->before : no_reading, n,
                               n > 0 ? of->after : no_reading, n, gritstrut_given(of->spreads, none),
                               n, gritstrut_given(of->balance_rows, none), m * n, answer->volumes, n,
                               answer->named, n, &answer->place, work->floats, GRITSTRUT_FLOATS,
                               work->words, GRITSTRUT_WORDS);
}

/* The volume between two readings of a totaliser of six digits. */
static inline double gritstrut_volume(uint32_t before, uint32_t after)
{
    return (double)after - (double)before + (after < before ? 1000000.0 : 0.0);
}

/* What the mending of a day's logger records comes to, by meter. */
typedef struct gritstrut_mended {
    size_t kept_bytes;
    uint64_t totals[16], rollovers[16];
    uint32_t meters; /* bit i is set where meter i has a kept record */
} gritstrut_mended;

/* How many records so many bytes are, a short one at the end among them. */
static inline size_t gritstrut_record_count(size_t bytes)
{
    return bytes / 16 + (bytes % 16 != 0 ? 1 : 0);
}

/* Mends records: kept has room for as many bytes, reasons for a byte of each record. */
static inline uint32_t gritstrut_mend_records(const uint8_t *records, size_t bytes, uint8_t *kept,
                                              uint8_t *reasons, gritstrut_mended *mended)
{
    uint8_t none[2] = {0, 0}, no_record[1] = {0};
    const size_t count = gritstrut_record_count(bytes);
    if (gritstrut_lacks(records, bytes) || gritstrut_lacks(kept, bytes) ||
        gritstrut_lacks(reasons, count))
        return GRITSTRUT_LENGTH;
    return gritstrut_mend(bytes > 0 ? records : no_record, bytes, bytes > 0 ? kept : none, bytes,
                          bytes > 0 ? reasons : none + 1, count, mended->totals, 16,
                          mended->rollovers, 16, &mended->kept_bytes, &mended->meters);
}

/* Why a record was dropped, in words. */
static inline const char *gritstrut_reason_word(uint8_t reason)
{
    static const char *const words[] = {"kept", "short", "spare bytes not zero", "meter over 15",
                                        "reading over 999999", "minute not later"};
    return reason < 6 ? words[reason] : "no reason";
}

/* A day by measured values. */
typedef struct gritstrut_day {
    size_t meters, balances, limits;
    const double *values;       /* meters, of any sign */
    const double *spreads;      /* meters */
    const double *balance_rows; /* balances * meters: sums wanted zero */
    const double *limit_rows;   /* limits * meters: sums wanted at least .. */
    const double *least;        /* limits: .. this */
    double tolerance;           /* how much a sum may miss */
    int nonnegative;            /* not 0: a limit at zero is added for each meter, after yours */
    const uint8_t *still;       /* meters, for the tests of meters; optional: none stands still */
} gritstrut_day;

typedef struct gritstrut_settled {
    double volumes[GRITSTRUT_MOST_VARIABLES];
    double multipliers[GRITSTRUT_MOST_CONSTRAINTS + GRITSTRUT_MOST_LIMITS]; /* balances' first */
    double bound; /* in spreads: none that is as good lies farther */
    uint32_t place;
} gritstrut_settled;

/* A day's limits, those that the header adds among them. */
typedef struct gritstrut_limits {
    double rows[GRITSTRUT_MOST_LIMITS * GRITSTRUT_MOST_VARIABLES];
    double least[GRITSTRUT_MOST_LIMITS];
    size_t count;
} gritstrut_limits;

/* Writes them down: 0, or the number that refuses them. */
static inline uint32_t gritstrut_list_limits(const gritstrut_day *day, gritstrut_limits *limits)
{
    const size_t n = day->meters, own = day->limits;
    size_t i;
    if (n > GRITSTRUT_MOST_VARIABLES || day->balances > GRITSTRUT_MOST_CONSTRAINTS ||
        own > GRITSTRUT_MOST_LIMITS)
        return GRITSTRUT_SIZE;
    limits->count = own + (day->nonnegative ? n : 0);
    if (limits->count > GRITSTRUT_MOST_LIMITS) return GRITSTRUT_SIZE;
    if (gritstrut_lacks(day->values, n) || gritstrut_lacks(day->spreads, n) ||
        gritstrut_lacks(day->balance_rows, day->balances * n) ||
        gritstrut_lacks(day->limit_rows, own * n) || gritstrut_lacks(day->least, own))
        return GRITSTRUT_LENGTH;
    memset(limits->rows, 0, sizeof limits->rows);
    memset(limits->least, 0, sizeof limits->least);
    if (own * n > 0) memcpy(limits->rows, day->limit_rows, own * n * sizeof(double));
    if (own > 0) memcpy(limits->least, day->least, own * sizeof(double));
    for (i = 0; own + i < limits->count; i++) limits->rows[(own + i) * n + i] = 1.0;
    return GRITSTRUT_DONE;
}

static inline uint32_t gritstrut_settle_day(const gritstrut_day *day, gritstrut_settled *answer,
                                            gritstrut_workspace *work)
{
    const size_t n = day->meters, m = day->balances;
    const double *none = answer->volumes;
    gritstrut_limits limits;
    const uint32_t refused = gritstrut_list_limits(day, &limits);
    answer->place = GRITSTRUT_NOWHERE;
    if (refused != GRITSTRUT_DONE) return refused;
    return gritstrut_settle(n, m, limits.count, gritstrut_given(day->values, none), n,
                            gritstrut_given(day->spreads, none), n,
                            gritstrut_given(day->balance_rows, none), m * n, limits.rows,
                            limits.count * n, limits.least, limits.count, day->tolerance,
                            answer->volumes, n, answer->multipliers, m + limits.count,
                            &answer->bound, &answer->place, work->floats, GRITSTRUT_FLOATS,
                            work->words, GRITSTRUT_WORDS);
}

/* The bound of the volumes and multipliers that stand in answer, wherever they come from. */
static inline uint32_t gritstrut_certify_day(const gritstrut_day *day, gritstrut_settled *answer,
                                             gritstrut_workspace *work)
{
    const size_t n = day->meters, m = day->balances;
    const double *none = answer->volumes;
    gritstrut_limits limits;
    const uint32_t refused = gritstrut_list_limits(day, &limits);
    answer->place = GRITSTRUT_NOWHERE;
    if (refused != GRITSTRUT_DONE) return refused;
    return gritstrut_certify(n, m, limits.count, gritstrut_given(day->values, none), n,
                             gritstrut_given(day->spreads, none), n,
                             gritstrut_given(day->balance_rows, none), m * n, limits.rows,
                             limits.count * n, limits.least, limits.count, answer->volumes, n,
                             answer->multipliers, m + limits.count, &answer->bound, &answer->place,
                             work->floats, GRITSTRUT_FLOATS, work->words, GRITSTRUT_WORDS);
}

/* What the tests of meters find. */
typedef struct gritstrut_suspected {
    double shares[GRITSTRUT_MOST_VARIABLES];  /* of an error, what shows in the balances */
    double spreads[GRITSTRUT_MOST_VARIABLES]; /* of the corrected volumes */
    double tests[GRITSTRUT_MOST_VARIABLES];   /* corrections over their own deviations */
    uint32_t groups[GRITSTRUT_MOST_VARIABLES];
    uint32_t marks[GRITSTRUT_MOST_VARIABLES];
    double misfit;
    gritstrut_finding finding;
    uint32_t place;
} gritstrut_suspected;

/* Reads values, spreads, balances and still of the day; limits are not seen. */
static inline uint32_t gritstrut_suspect_day(const gritstrut_day *day, gritstrut_suspected *answer,
                                             gritstrut_workspace *work)
{
    const size_t n = day->meters, m = day->balances;
    const uint8_t moving[GRITSTRUT_MOST_VARIABLES] = {0};
    double numbers[3 * GRITSTRUT_MOST_VARIABLES];
    const double *none = &answer->misfit;
    uint32_t number;
    answer->place = GRITSTRUT_NOWHERE;
    if (n > GRITSTRUT_MOST_VARIABLES || m > GRITSTRUT_MOST_CONSTRAINTS) return GRITSTRUT_SIZE;
    if (gritstrut_lacks(day->values, n) || gritstrut_lacks(day->spreads, n) ||
        gritstrut_lacks(day->balance_rows, m * n))
        return GRITSTRUT_LENGTH;
    number = gritstrut_suspect(n, m, gritstrut_given(day->values, none), n,
                               gritstrut_given(day->spreads, none), n,
                               gritstrut_given(day->balance_rows, none), m * n,
                               day->still != NULL ? day->still : moving, n, numbers, 3 * n,
                               answer->groups, n, answer->marks, n, &answer->misfit,
                               &answer->finding, &answer->place, work->floats, GRITSTRUT_FLOATS,
                               work->words, GRITSTRUT_WORDS);
    if (number == GRITSTRUT_DONE && n > 0) {
        memcpy(answer->shares, numbers, n * sizeof(double));
        memcpy(answer->spreads, numbers + n, n * sizeof(double));
        memcpy(answer->tests, numbers + 2 * n, n * sizeof(double));
    }
    return number;
}

/* ------------------------------------------------------------------------------ the day's report */

/* What a day's report says in its first line. */
typedef enum gritstrut_day_verdict {
    GRITSTRUT_DAY_CLOSES,    /* the only one that can be signed */
    GRITSTRUT_DAY_DISAGREES, /* closes, but the meters disagree */
    GRITSTRUT_DAY_UNCHECKED, /* closes, but no meter is checked */
    GRITSTRUT_DAY_NOT_CERTAIN,
    GRITSTRUT_DAY_DOES_NOT_CLOSE,
    GRITSTRUT_DAY_REFUSED,
    GRITSTRUT_DAY_UNKNOWN /* the text is no report */
} gritstrut_day_verdict;

/* A report, 80 KiB: make it static, or allocate it. */
typedef struct gritstrut_day_report {
    uint8_t text[GRITSTRUT_DAY_REPORT];
    size_t bytes;      /* of the text, which has no zero at its end */
    size_t first_line; /* bytes of the first line, without its line feed */
    gritstrut_day_verdict verdict;
} gritstrut_day_report;

/* Whether a line is, or where more may follow begins with, some words. */
static inline int gritstrut_line_says(const uint8_t *line, size_t bytes, const char *words, int more)
{
    const size_t length = strlen(words);
    return (more ? bytes >= length : bytes == length) && memcmp(line, words, length) == 0;
}

/* The verdict that a report's first line tells. */
static inline gritstrut_day_verdict gritstrut_verdict_of(const uint8_t *line, size_t bytes)
{
    if (gritstrut_line_says(line, bytes, "closes", 0)) return GRITSTRUT_DAY_CLOSES;
    if (gritstrut_line_says(line, bytes, "closes, but the meters disagree", 1))
        return GRITSTRUT_DAY_DISAGREES;
    if (gritstrut_line_says(line, bytes, "closes, but no meter is checked", 0))
        return GRITSTRUT_DAY_UNCHECKED;
    if (gritstrut_line_says(line, bytes, "not certain", 0)) return GRITSTRUT_DAY_NOT_CERTAIN;
    if (gritstrut_line_says(line, bytes, "does not close", 0)) return GRITSTRUT_DAY_DOES_NOT_CLOSE;
    if (gritstrut_line_says(line, bytes, "refused ", 1)) return GRITSTRUT_DAY_REFUSED;
    return GRITSTRUT_DAY_UNKNOWN;
}

/* Writes the report on a sheet's bytes, and reads its verdict. Leave it 128 KiB of stack
 * (gritstrut_report). */
static inline uint32_t gritstrut_report_day(const void *sheet, size_t bytes,
                                            gritstrut_day_report *report)
{
    const uint8_t none[1] = {0};
    uint32_t number;
    if (gritstrut_lacks(sheet, bytes)) return GRITSTRUT_LENGTH;
    number = gritstrut_report(bytes > 0 ? (const uint8_t *)sheet : none, bytes, report->text,
                              GRITSTRUT_DAY_REPORT, &report->bytes);
    if (number != GRITSTRUT_DONE) return number;
    report->first_line = 0;
    while (report->first_line < report->bytes && report->text[report->first_line] != '\n')
        report->first_line++;
    report->verdict = gritstrut_verdict_of(report->text, report->first_line);
    return number;
}

/* A verdict in words. */
static inline const char *gritstrut_verdict_word(gritstrut_day_verdict verdict)
{
    switch (verdict) {
    case GRITSTRUT_DAY_CLOSES: return "closes";
    case GRITSTRUT_DAY_DISAGREES: return "closes, but the meters disagree";
    case GRITSTRUT_DAY_UNCHECKED: return "closes, but no meter is checked";
    case GRITSTRUT_DAY_NOT_CERTAIN: return "not certain";
    case GRITSTRUT_DAY_DOES_NOT_CLOSE: return "does not close";
    case GRITSTRUT_DAY_REFUSED: return "refused";
    case GRITSTRUT_DAY_UNKNOWN: break;
    }
    return "no report";
}

/* The exit status that the command has for a verdict: 0 closes, 1 not to be signed, 2 refused, 3. */
static inline int gritstrut_verdict_status(gritstrut_day_verdict verdict)
{
    if (verdict == GRITSTRUT_DAY_CLOSES) return 0;
    if (verdict == GRITSTRUT_DAY_REFUSED) return 2;
    return verdict == GRITSTRUT_DAY_UNKNOWN ? 3 : 1;
}

/* -------------------------------------------------------------------------------------- the step */

/* The problem of a step: the least d'Bd / 2 + g'd, B = L L', under constraints and bounds. */
typedef struct gritstrut_problem {
    size_t variables, constraints;
    const double *factor;   /* L, variables * variables, +0 above the diagonal */
    const double *gradient; /* variables; optional: zeros */
    const uint8_t *kinds;   /* constraints: GRITSTRUT_EQUALITY, _FLOOR or _BAND */
    const double *values;   /* constraints */
    const double *widths;   /* constraints, of bands; optional: zeros */
    const double *jacobian; /* constraints * variables */
    const double *lower;    /* variables; optional: open */
    const double *upper;    /* variables; optional: open */
} gritstrut_problem;

/* A step, from gritstrut_solve_step or from elsewhere. */
typedef struct gritstrut_step_answer {
    double d[GRITSTRUT_MOST_VARIABLES];
    double multipliers[GRITSTRUT_MOST_CONSTRAINTS];
    double lower_multipliers[GRITSTRUT_MOST_VARIABLES]; /* of the sides, worked out here from slopes */
    double upper_multipliers[GRITSTRUT_MOST_VARIABLES];
    double relaxation;
    uint32_t report[GRITSTRUT_REPORT];
} gritstrut_step_answer;

/* A problem with every array there, those that were left out too. */
typedef struct gritstrut_whole_problem {
    gritstrut_problem problem;
    double zeros[GRITSTRUT_MOST_VARIABLES], below[GRITSTRUT_MOST_VARIABLES],
        above[GRITSTRUT_MOST_VARIABLES];
    uint8_t no_kinds[1];
} gritstrut_whole_problem;

static inline uint32_t gritstrut_fill_problem(const gritstrut_problem *from,
                                              gritstrut_whole_problem *whole)
{
    const size_t n = from->variables, m = from->constraints;
    gritstrut_problem *to = &whole->problem;
    size_t i;
    if (n < 1 || n > GRITSTRUT_MOST_VARIABLES || m > GRITSTRUT_MOST_CONSTRAINTS)
        return GRITSTRUT_SIZE;
    if (gritstrut_lacks(from->factor, n * n) || gritstrut_lacks(from->kinds, m) ||
        gritstrut_lacks(from->values, m) || gritstrut_lacks(from->jacobian, m * n))
        return GRITSTRUT_LENGTH;
    for (i = 0; i < GRITSTRUT_MOST_VARIABLES; i++) {
        whole->zeros[i] = 0.0;
        whole->below[i] = -HUGE_VAL;
        whole->above[i] = HUGE_VAL;
    }
    whole->no_kinds[0] = 0;
    *to = *from;
    to->gradient = gritstrut_given(from->gradient, whole->zeros);
    to->values = gritstrut_given(from->values, whole->zeros);
    to->widths = gritstrut_given(from->widths, whole->zeros);
    to->jacobian = gritstrut_given(from->jacobian, whole->zeros);
    to->lower = gritstrut_given(from->lower, whole->below);
    to->upper = gritstrut_given(from->upper, whole->above);
    if (from->kinds == NULL) to->kinds = whole->no_kinds;
    return GRITSTRUT_DONE;
}

/* The multipliers of a step's sides, which the library does not give: what its own leave of the
 * slope L L'd + gradient - sum of constraint terms, for the side that can take it. */
static inline void gritstrut_find_sides(const gritstrut_problem *p, gritstrut_step_answer *step)
{
    const size_t n = p->variables;
    double half[GRITSTRUT_MOST_VARIABLES];
    size_t i, j, k;
    for (k = 0; k < n; k++) {
        half[k] = 0.0;
        for (i = k; i < n; i++) half[k] += p->factor[i * n + k] * step->d[i];
    }
    for (i = 0; i < n; i++) {
        double slope = p->gradient[i];
        for (k = 0; k <= i; k++) slope += p->factor[i * n + k] * half[k];
        for (j = 0; j < p->constraints; j++) slope -= p->jacobian[j * n + i] * step->multipliers[j];
        step->lower_multipliers[i] = slope > 0.0 && p->lower[i] > -HUGE_VAL ? slope : 0.0;
        step->upper_multipliers[i] = slope < 0.0 && p->upper[i] < HUGE_VAL ? -slope : 0.0;
    }
}

/* The strict step: a bound that means nothing is refused. tally may be NULL. */
static inline uint32_t gritstrut_solve_step(const gritstrut_problem *problem,
                                            gritstrut_step_answer *step, gritstrut_tally *tally,
                                            gritstrut_workspace *work)
{
    gritstrut_whole_problem whole;
    gritstrut_tally unread = {0, 0};
    const gritstrut_problem *p = &whole.problem;
    uint32_t number = gritstrut_fill_problem(problem, &whole);
    size_t n, m;
    if (number != GRITSTRUT_DONE) return number;
    n = p->variables;
    m = p->constraints;
    number = gritstrut_strict_step(
        n, m, p->factor, n * n, p->gradient, n, p->kinds, m, p->values, m, p->widths, m, p->jacobian,
        m * n, p->lower, n, p->upper, n, step->d, n, step->multipliers, m, &step->relaxation,
        step->report, GRITSTRUT_REPORT, tally != NULL ? tally : &unread, work->floats,
        GRITSTRUT_FLOATS, work->words, GRITSTRUT_WORDS);
    if (number == GRITSTRUT_DONE) gritstrut_find_sides(p, step);
    return number;
}

/* The constraint that a place of a step's exact stage names with GRITSTRUT_DEPENDENT: such places
 * count the equalities alone. The count of constraints where there is none. */
static inline size_t gritstrut_constraint_of(const gritstrut_problem *problem, uint32_t place)
{
    size_t j = 0;
    while (j < problem->constraints && (problem->kinds[j] != GRITSTRUT_EQUALITY || place-- != 0)) j++;
    return j;
}

/* The verdict on a step: d, and all four kinds of multipliers, are read. */
static inline uint32_t gritstrut_check_step(const gritstrut_problem *problem,
                                            const gritstrut_step_answer *step, double tolerance,
                                            uint32_t verdict[GRITSTRUT_VERDICT],
                                            gritstrut_workspace *work)
{
    gritstrut_whole_problem whole;
    const gritstrut_problem *p = &whole.problem;
    const uint32_t refused = gritstrut_fill_problem(problem, &whole);
    size_t n, m;
    if (refused != GRITSTRUT_DONE) return refused;
    n = p->variables;
    m = p->constraints;
    return gritstrut_check(n, m, p->factor, n * n, p->gradient, n, p->kinds, m, p->values, m,
                           p->widths, m, p->jacobian, m * n, p->lower, n, p->upper, n, step->d, n,
                           step->multipliers, m, step->lower_multipliers, n, step->upper_multipliers,
                           n, tolerance, verdict, GRITSTRUT_VERDICT, work->floats, GRITSTRUT_FLOATS,
                           work->words, GRITSTRUT_WORDS);
}

/* A verdict's test and part, in words. */
static inline const char *gritstrut_test_word(const uint32_t verdict[GRITSTRUT_VERDICT])
{
    static const char *const words[] = {"yes", "stationarity", "residual", "violation", "sign", "product"};
    return verdict[GRITSTRUT_TEST] < 6 ? words[verdict[GRITSTRUT_TEST]] : "no test";
}
static inline const char *gritstrut_part_word(const uint32_t verdict[GRITSTRUT_VERDICT])
{
    static const char *const words[] = {"variable", "constraint", "ceiling", "lower side", "upper side"};
    return verdict[GRITSTRUT_PART] < 5 ? words[verdict[GRITSTRUT_PART]] : "no part";
}

/* Writes a step's problem as the record program's input to the first *written bytes of file. place is
 * the variable with GRITSTRUT_BOUND. */
static inline uint32_t gritstrut_write_problem_file(const gritstrut_problem *problem,
                                                    uint8_t file[GRITSTRUT_FILE], size_t *written,
                                                    uint32_t *place, gritstrut_workspace *work)
{
    enum { N = GRITSTRUT_MOST_VARIABLES, M = GRITSTRUT_MOST_CONSTRAINTS };
    uint64_t factor[N * N], gradient[N], values[M], widths[M], jacobian[M * N], lower[N], upper[N];
    gritstrut_whole_problem whole;
    const gritstrut_problem *p = &whole.problem;
    const uint32_t refused = gritstrut_fill_problem(problem, &whole);
    size_t n, m;
    *place = GRITSTRUT_NOWHERE;
    if (refused != GRITSTRUT_DONE) return refused;
    n = p->variables;
    m = p->constraints;
    memcpy(factor, p->factor, n * n * sizeof(double));
    memcpy(gradient, p->gradient, n * sizeof(double));
    memcpy(values, p->values, m * sizeof(double));
    memcpy(widths, p->widths, m * sizeof(double));
    memcpy(jacobian, p->jacobian, m * n * sizeof(double));
    memcpy(lower, p->lower, n * sizeof(double));
    memcpy(upper, p->upper, n * sizeof(double));
    return gritstrut_write_problem(n, m, factor, n * n, gradient, n, p->kinds, m, values, m, widths, m,
                                   jacobian, m * n, lower, n, upper, n, file, GRITSTRUT_FILE, written,
                                   place, work->floats, GRITSTRUT_FLOATS, work->words,
                                   GRITSTRUT_WORDS);
}

/* ----------------------------------------------------------------------------- the approximation B */

/* B, square, and how many variables it has. */
typedef struct gritstrut_hessian {
    size_t n;
    double b[GRITSTRUT_MOST_VARIABLES * GRITSTRUT_MOST_VARIABLES];
} gritstrut_hessian;

/* Sets B to the identity of n variables. */
static inline uint32_t gritstrut_reset_hessian(gritstrut_hessian *hessian, size_t n,
                                               gritstrut_workspace *work)
{
    if (n < 1 || n > GRITSTRUT_MOST_VARIABLES) return GRITSTRUT_SIZE;
    hessian->n = n;
    return gritstrut_hessian_identity(n, hessian->b, n * n, work->floats, GRITSTRUT_FLOATS,
                                      work->words, GRITSTRUT_WORDS);
}

/* Writes B v (n) to out. */
static inline uint32_t gritstrut_apply_hessian(const gritstrut_hessian *hessian, const double *v,
                                               double *out, gritstrut_workspace *work)
{
    const size_t n = hessian->n;
    if (n < 1 || n > GRITSTRUT_MOST_VARIABLES) return GRITSTRUT_SIZE;
    if (v == NULL || out == NULL) return GRITSTRUT_LENGTH;
    return gritstrut_hessian_times(n, hessian->b, n * n, v, n, out, n, work->floats, GRITSTRUT_FLOATS,
                                   work->words, GRITSTRUT_WORDS);
}

/* Writes the factor L (n * n) of B = L L' to factor, as a step takes it. */
static inline uint32_t gritstrut_factor_hessian(const gritstrut_hessian *hessian, double *factor,
                                                gritstrut_workspace *work)
{
    const size_t n = hessian->n;
    if (n < 1 || n > GRITSTRUT_MOST_VARIABLES) return GRITSTRUT_SIZE;
    if (factor == NULL) return GRITSTRUT_LENGTH;
    return gritstrut_hessian_cholesky(n, hessian->b, n * n, factor, n * n, work->floats,
                                      GRITSTRUT_FLOATS, work->words, GRITSTRUT_WORDS);
}

/* The damped update by the step s (n) and the change of gradient y (n). */
static inline uint32_t gritstrut_update_hessian(gritstrut_hessian *hessian, const double *s,
                                                const double *y, gritstrut_workspace *work)
{
    const size_t n = hessian->n;
    if (n < 1 || n > GRITSTRUT_MOST_VARIABLES) return GRITSTRUT_SIZE;
    if (s == NULL || y == NULL) return GRITSTRUT_LENGTH;
    return gritstrut_hessian_update(n, hessian->b, n * n, s, n, y, n, work->floats, GRITSTRUT_FLOATS,
                                    work->words, GRITSTRUT_WORDS);
}

/* ------------------------------------------------------------------------------------ the search */

/* What a search looks for. */
typedef struct gritstrut_aim {
    size_t variables, constraints;
    const uint8_t *kinds; /* constraints: GRITSTRUT_EQUALITY or GRITSTRUT_FLOOR */
    const double *lower;  /* variables; optional: open */
    const double *upper;  /* variables; optional: open */
    const double *start;  /* variables */
    double ftol;
    uint32_t budget; /* objective values, up to GRITSTRUT_SEARCH_BUDGET */
    uint32_t scheme; /* GRITSTRUT_SEARCH_TOLD, _FORWARD or _CENTRAL */
} gritstrut_aim;

/* All that a search knows: it may be stored, copied and gone on with elsewhere. */
typedef struct gritstrut_search {
    double machine[GRITSTRUT_SEARCH_MACHINE];
    uint32_t words[GRITSTRUT_SEARCH_WORDS];
    uint32_t place; /* the variable with GRITSTRUT_BOUND */
} gritstrut_search;

static inline uint32_t gritstrut_begin_search(const gritstrut_aim *aim, gritstrut_search *search,
                                              gritstrut_workspace *work)
{
    const size_t n = aim->variables, m = aim->constraints;
    const uint8_t no_kinds[1] = {0};
    double below[GRITSTRUT_MOST_VARIABLES], above[GRITSTRUT_MOST_VARIABLES];
    size_t i;
    search->place = GRITSTRUT_NOWHERE;
    if (n < 1 || n > GRITSTRUT_MOST_VARIABLES || m > GRITSTRUT_MOST_CONSTRAINTS)
        return GRITSTRUT_SIZE;
    if (gritstrut_lacks(aim->kinds, m) || gritstrut_lacks(aim->start, n)) return GRITSTRUT_LENGTH;
    for (i = 0; i < n; i++) {
        below[i] = -HUGE_VAL;
        above[i] = HUGE_VAL;
    }
    return gritstrut_search_begin(n, m, m > 0 ? aim->kinds : no_kinds, m,
                                  gritstrut_given(aim->lower, below), n,
                                  gritstrut_given(aim->upper, above), n, aim->start, n, aim->ftol,
                                  aim->budget, aim->scheme, search->machine,
                                  GRITSTRUT_SEARCH_MACHINE, search->words, GRITSTRUT_SEARCH_WORDS,
                                  &search->place, work->floats, GRITSTRUT_FLOATS, work->words,
                                  GRITSTRUT_WORDS);
}

/* What is asked, or how the run has ended: GRITSTRUT_SEARCH_START and so on. */
static inline uint32_t gritstrut_asked(const gritstrut_search *search)
{
    return search->words[GRITSTRUT_SEARCH_ASKED];
}

/* The point that is asked about; the accepted point; the multipliers of the last step; and the values
 * at the accepted point, the objective's first. */
static inline const double *gritstrut_point(const gritstrut_search *search)
{
    return search->machine + GRITSTRUT_SEARCH_POINT;
}
static inline const double *gritstrut_accepted(const gritstrut_search *search)
{
    return search->machine + GRITSTRUT_SEARCH_X;
}
static inline const double *gritstrut_search_multipliers(const gritstrut_search *search)
{
    return search->machine + GRITSTRUT_SEARCH_MULTIPLIERS;
}
static inline const double *gritstrut_accepted_values(const gritstrut_search *search)
{
    return search->machine + GRITSTRUT_SEARCH_VALUES;
}

/* How many numbers the question that stands wants: 0 where none stands. */
static inline size_t gritstrut_wanted(const gritstrut_search *search)
{
    const size_t n = search->words[GRITSTRUT_SEARCH_VARIABLES];
    const size_t m = search->words[GRITSTRUT_SEARCH_CONSTRAINTS];
    switch (gritstrut_asked(search)) {
    case GRITSTRUT_SEARCH_START:
    case GRITSTRUT_SEARCH_TRIAL: return 1 + m;
    case GRITSTRUT_SEARCH_SLOPES: return (1 + m) * n;
    case GRITSTRUT_SEARCH_RAISED:
    case GRITSTRUT_SEARCH_LOWERED: return 1;
    default: return 0;
    }
}

/* Tells the answer, as many numbers as gritstrut_wanted says. */
static inline uint32_t gritstrut_tell_search(gritstrut_search *search, const double *told,
                                             gritstrut_workspace *work)
{
    const size_t count = gritstrut_wanted(search);
    if (gritstrut_lacks(told, count)) return GRITSTRUT_LENGTH;
    return gritstrut_search_tell(gritstrut_given(told, work->floats), count, search->machine,
                                 GRITSTRUT_SEARCH_MACHINE, search->words, GRITSTRUT_SEARCH_WORDS,
                                 work->floats, GRITSTRUT_FLOATS, work->words, GRITSTRUT_WORDS);
}

/* The functions of a search: 0 is the objective, 1 + j constraint j. value gives one at x; slopes
 * writes its slope along each variable to row, and is asked only where slopes are told. context is
 * handed on. */
typedef struct gritstrut_functions {
    double (*value)(size_t function, const double *x, void *context);
    void (*slopes)(size_t function, const double *x, double *row, void *context);
    void *context;
} gritstrut_functions;

/* Begins a search and answers its questions until it has ended: gritstrut_asked says how. */
static inline uint32_t gritstrut_run_search(const gritstrut_aim *aim,
                                            const gritstrut_functions *functions,
                                            gritstrut_search *search, gritstrut_workspace *work)
{
    double told[(1 + GRITSTRUT_MOST_CONSTRAINTS) * GRITSTRUT_MOST_VARIABLES];
    uint32_t number = gritstrut_begin_search(aim, search, work);
    if (number == GRITSTRUT_DONE && aim->scheme == GRITSTRUT_SEARCH_TOLD && functions->slopes == NULL)
        return GRITSTRUT_LENGTH;
    while (number == GRITSTRUT_DONE && gritstrut_wanted(search) > 0) {
        const double *x = gritstrut_point(search);
        const uint32_t asked = gritstrut_asked(search);
        size_t j;
        if (asked == GRITSTRUT_SEARCH_SLOPES)
            for (j = 0; j <= aim->constraints; j++)
                functions->slopes(j, x, told + j * aim->variables, functions->context);
        else if (asked == GRITSTRUT_SEARCH_START || asked == GRITSTRUT_SEARCH_TRIAL)
            for (j = 0; j <= aim->constraints; j++)
                told[j] = functions->value(j, x, functions->context);
        else
            told[0] = functions->value(GRITSTRUT_SEARCH_FUNCTION(search->words), x, functions->context);
        number = gritstrut_tell_search(search, told, work);
    }
    return number;
}

/* How a search has ended, in words; what it waits for where it has not. */
static inline const char *gritstrut_search_word(const gritstrut_search *search)
{
    switch (gritstrut_asked(search)) {
    case GRITSTRUT_SEARCH_CONVERGED: return "converged";
    case GRITSTRUT_SEARCH_INFEASIBLE: return "infeasible";
    case GRITSTRUT_SEARCH_EXHAUSTED: return "exhausted";
    case GRITSTRUT_SEARCH_NONFINITE: return "a number that is not finite";
    default: return gritstrut_wanted(search) > 0 ? "an answer is wanted" : "not begun";
    }
}

#ifdef __cplusplus
}
#endif

#endif
