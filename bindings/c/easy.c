/* Holds each function of gritstrut_easy.h against the plain call that it stands for, bit for bit, and tries what it refuses.
 * tools/check-users builds and runs it, as C99 and as C++17. */
#include <stdio.h>

#include "gritstrut_easy.h"

static gritstrut_workspace work;
static double w[GRITSTRUT_FLOATS];
static uint32_t iw[GRITSTRUT_WORDS];
static int tried = 0, failed = 0;

#define LENT w, GRITSTRUT_FLOATS, iw, GRITSTRUT_WORDS
#define HOLDS(what) holds((what) != 0, #what, __LINE__)

static void holds(int truth, const char *what, int line)
{
    tried++;
    if (truth) return;
    failed++;
    printf("line %d: %s does not hold\n", line, what);
}

static int same(const void *first, const void *second, size_t bytes)
{
    return memcmp(first, second, bytes) == 0;
}

enum { N = 4, M = 1 };
static const double values[N] = {120.4, 79.1, 131.9, 70.2};
static const double spreads[N] = {1.0, 1.0, 2.0, 0.5};
static const double header[N] = {1.0, 1.0, -1.0, -1.0};
static const double ceiling[N] = {-1.0, -1.0, 0.0, 0.0};
static const double most[1] = {-200.0};
static const double unit[N * N] = {1, 0, 0, 0, 0, 1, 0, 0, 0, 0, 1, 0, 0, 0, 0, 1};

static void try_least_squares(void)
{
    static const double a[6] = {1, 2, 3, 4, 5, 7}, b[3] = {1, 0, 2};
    static gritstrut_nnls_problem of;
    static gritstrut_nnls_answer answer;
    static gritstrut_lsei_problem squares;
    static gritstrut_lsei_answer solved;
    double x[N], multipliers[2];
    uint32_t rounds = 0, factorings = 0, place = 0;

    of.rows = 3;
    of.columns = 2;
    of.a = a;
    of.b = b;
    HOLDS(gritstrut_solve_nnls(&of, &answer, &work) == GRITSTRUT_DONE);
    HOLDS(gritstrut_nnls(3, 2, 6, a, 6, b, 3, x, 2, &rounds, &factorings, LENT) == GRITSTRUT_DONE);
    HOLDS(same(x, answer.x, 2 * sizeof *x) && rounds == answer.rounds && factorings == answer.factorings);
    of.a = NULL;
    HOLDS(gritstrut_solve_nnls(&of, &answer, &work) == GRITSTRUT_LENGTH);
    of.rows = 19;
    HOLDS(gritstrut_solve_nnls(&of, &answer, &work) == GRITSTRUT_SIZE);

    squares.unknowns = N;
    squares.equalities = 1;
    squares.rows = N;
    squares.inequalities = 1;
    squares.c = header;
    squares.d = header + 2; /* any number: -1 */
    squares.e = unit;
    squares.f = values;
    squares.g = ceiling;
    squares.h = most;
    HOLDS(gritstrut_solve_lsei(&squares, &solved, &work) == GRITSTRUT_DONE);
    HOLDS(gritstrut_lsei(N, 1, N, 1, header, N, header + 2, 1, unit, N * N, values, N, ceiling, N, most, 1, x, N, multipliers,
                         2, &place, LENT) == GRITSTRUT_DONE);
    HOLDS(same(x, solved.x, sizeof x) && same(multipliers, solved.multipliers, sizeof multipliers));
    HOLDS(solved.place == GRITSTRUT_NOWHERE);
    squares.c = unit; /* a row of E's own: fine; of two equal rows one depends on the other */
    squares.equalities = 0;
    squares.inequalities = 0;
    squares.c = squares.d = squares.g = squares.h = NULL;
    HOLDS(gritstrut_solve_lsei(&squares, &solved, &work) == GRITSTRUT_DONE);
    squares.rows = N - 1;
    HOLDS(gritstrut_solve_lsei(&squares, &solved, &work) == GRITSTRUT_DEFICIENT && solved.place == N - 1);
    HOLDS(strcmp(gritstrut_place_word(GRITSTRUT_OF_LSEI, GRITSTRUT_DEFICIENT, 0), "variable") == 0);
}

static void try_day(void)
{
    static const uint32_t before[N] = {431250, 999710, 20000, 750300}, after[N] = {432450, 500, 21310, 751000};
    static gritstrut_readings readings;
    static gritstrut_reconciled reconciled;
    static gritstrut_day day;
    static gritstrut_settled settled, certified;
    static gritstrut_suspected suspected;
    const uint8_t moving[N] = {0, 0, 0, 0};
    const double limits[2 * N] = {-1, -1, 0, 0, 0, 0, 0, 1}, least[2] = {-200.0, 0.0};
    double x[N], multipliers[M + 5], bound = 0.0, numbers[3 * N], misfit = 0.0;
    uint8_t named[N];
    uint32_t place = 0, groups[N], marks[N];
    gritstrut_finding finding;

    readings.meters = N;
    readings.balances = M;
    readings.before = before;
    readings.after = after;
    readings.spreads = spreads;
    readings.balance_rows = header;
    HOLDS(gritstrut_reconcile_readings(&readings, &reconciled, &work) == GRITSTRUT_DONE);
    HOLDS(gritstrut_reconcile(N, M, before, N, after, N, spreads, N, header, N, x, N, named, N, &place, LENT) == GRITSTRUT_DONE);
    HOLDS(same(x, reconciled.volumes, sizeof x) && same(named, reconciled.named, sizeof named));
    readings.before = NULL;
    HOLDS(gritstrut_reconcile_readings(&readings, &reconciled, &work) == GRITSTRUT_LENGTH);
    HOLDS(gritstrut_volume(before[1], after[1]) == 790.0 && gritstrut_volume(before[0], after[0]) == 1200.0);

    day.meters = N;
    day.balances = M;
    day.limits = 2;
    day.values = values;
    day.spreads = spreads;
    day.balance_rows = header;
    day.limit_rows = limits;
    day.least = least;
    day.tolerance = 1e-3;
    HOLDS(gritstrut_settle_day(&day, &settled, &work) == GRITSTRUT_DONE);
    HOLDS(gritstrut_settle(N, M, 2, values, N, spreads, N, header, N, limits, 2 * N, least, 2, 1e-3, x, N, multipliers, M + 2,
                           &bound, &place, LENT) == GRITSTRUT_DONE);
    HOLDS(same(x, settled.volumes, sizeof x) && same(multipliers, settled.multipliers, 3 * sizeof *x));
    HOLDS(bound == settled.bound && settled.place == GRITSTRUT_NOWHERE);
    certified = settled;
    certified.bound = -1.0;
    HOLDS(gritstrut_certify_day(&day, &certified, &work) == GRITSTRUT_DONE && certified.bound == settled.bound);

    day.nonnegative = 1;
    day.limits = 1;
    HOLDS(gritstrut_settle_day(&day, &settled, &work) == GRITSTRUT_DONE);
    {
        double rows[5 * N] = {-1, -1, 0, 0}, zeros[5] = {-200.0, 0, 0, 0, 0};
        int i;
        for (i = 0; i < N; i++) rows[(1 + i) * N + i] = 1.0;
        HOLDS(gritstrut_settle(N, M, 5, values, N, spreads, N, header, N, rows, 5 * N, zeros, 5, 1e-3, x, N, multipliers,
                               M + 5, &bound, &place, LENT) == GRITSTRUT_DONE);
    }
    HOLDS(same(x, settled.volumes, sizeof x) && same(multipliers, settled.multipliers, 6 * sizeof *x));
    day.limits = 45;
    HOLDS(gritstrut_settle_day(&day, &settled, &work) == GRITSTRUT_SIZE);
    day.limits = 0;
    day.spreads = header;
    HOLDS(gritstrut_settle_day(&day, &settled, &work) == GRITSTRUT_SPREAD && settled.place == 2);
    HOLDS(strcmp(gritstrut_place_word(GRITSTRUT_OF_SETTLE, GRITSTRUT_SPREAD, 1), "meter") == 0);
    day.spreads = NULL;
    HOLDS(gritstrut_settle_day(&day, &settled, &work) == GRITSTRUT_LENGTH);

    day.spreads = spreads;
    HOLDS(gritstrut_suspect_day(&day, &suspected, &work) == GRITSTRUT_DONE);
    HOLDS(gritstrut_suspect(N, M, values, N, spreads, N, header, N, moving, N, numbers, 3 * N, groups, N, marks, N, &misfit,
                            &finding, &place, LENT) == GRITSTRUT_DONE);
    HOLDS(same(numbers, suspected.shares, sizeof x) && same(numbers + N, suspected.spreads, sizeof x));
    HOLDS(same(numbers + 2 * N, suspected.tests, sizeof x) && same(groups, suspected.groups, sizeof groups));
    HOLDS(same(marks, suspected.marks, sizeof marks) && same(&finding, &suspected.finding, sizeof finding));
    HOLDS(misfit == suspected.misfit);
    {
        static const uint8_t still[N] = {1, 0, 0, 0};
        day.still = still;
        HOLDS(gritstrut_suspect_day(&day, &suspected, &work) == GRITSTRUT_DONE);
        HOLDS(gritstrut_suspect(N, M, values, N, spreads, N, header, N, still, N, numbers, 3 * N, groups, N, marks, N, &misfit,
                                &finding, &place, LENT) == GRITSTRUT_DONE);
        HOLDS(same(numbers, suspected.shares, sizeof x) && suspected.shares[0] == 0.0);
    }
}

static void try_report(void)
{
    static const char sheet[] = "title t\nmeter a 0 10 1\nmeter b 0 12 1\nbalance h a = b\ntolerance 0.001\n";
    static const struct {
        const char *line;
        gritstrut_day_verdict verdict;
        int status;
    } lines[] = {{"closes", GRITSTRUT_DAY_CLOSES, 0},
                 {"closes, but the meters disagree: look at a or b first", GRITSTRUT_DAY_DISAGREES, 1},
                 {"closes, but the meters disagree", GRITSTRUT_DAY_DISAGREES, 1},
                 {"closes, but no meter is checked", GRITSTRUT_DAY_UNCHECKED, 1},
                 {"not certain", GRITSTRUT_DAY_NOT_CERTAIN, 1},
                 {"does not close", GRITSTRUT_DAY_DOES_NOT_CLOSE, 1},
                 {"refused 7: the working did not end within its rounds", GRITSTRUT_DAY_REFUSED, 2},
                 {"closes,", GRITSTRUT_DAY_UNKNOWN, 3},
                 {"close", GRITSTRUT_DAY_UNKNOWN, 3},
                 {"", GRITSTRUT_DAY_UNKNOWN, 3}};
    static gritstrut_day_report report;
    static uint8_t text[GRITSTRUT_DAY_REPORT];
    size_t bytes = 0, k;

    memset(&report, 7, sizeof report);
    memset(text, 7, sizeof text);
    HOLDS(gritstrut_report_day(sheet, strlen(sheet), &report) == GRITSTRUT_DONE && report.verdict == GRITSTRUT_DAY_CLOSES);
    HOLDS(gritstrut_report((const uint8_t *)sheet, strlen(sheet), text, sizeof text, &bytes) == GRITSTRUT_DONE);
    HOLDS(bytes == report.bytes && same(text, report.text, sizeof text) && report.first_line == 6 && same(text, "closes\n", 7));
    HOLDS(gritstrut_report((const uint8_t *)sheet, strlen(sheet), text, sizeof text - 1, &bytes) == GRITSTRUT_LENGTH);
    HOLDS(bytes == report.bytes && same(text, report.text, sizeof text));
    HOLDS(gritstrut_report_day(NULL, 0, &report) == GRITSTRUT_DONE && report.verdict == GRITSTRUT_DAY_REFUSED);
    HOLDS(report.first_line + 1 == report.bytes && strcmp(gritstrut_verdict_word(report.verdict), "refused") == 0);
    HOLDS(gritstrut_report_day(NULL, 1, &report) == GRITSTRUT_LENGTH);
    for (k = 0; k < sizeof lines / sizeof *lines; k++) {
        const char *line = lines[k].line;
        const gritstrut_day_verdict verdict = gritstrut_verdict_of((const uint8_t *)line, strlen(line));
        HOLDS(verdict == lines[k].verdict && gritstrut_verdict_status(verdict) == lines[k].status);
        HOLDS(verdict == GRITSTRUT_DAY_UNKNOWN || strncmp(line, gritstrut_verdict_word(verdict), strlen(gritstrut_verdict_word(verdict))) == 0);
    }
}

static void try_mending(void)
{
    /* meter 1: 999999 at minute 0, 4 at minute 1, again minute 1; and a short record */
    static const uint8_t records[51] = {1, 0, 0, 0, 0, 0, 0, 0, 0x3f, 0x42, 0x0f, 0, 0, 0, 0, 0,
                                        1, 0, 0, 0, 1, 0, 0, 0, 4,    0,    0,    0, 0, 0, 0, 0,
                                        1, 0, 0, 0, 1, 0, 0, 0, 5,    0,    0,    0, 0, 0, 0, 0};
    static gritstrut_mended mended;
    uint8_t kept[51], reasons[4], own[51], why[4];
    uint64_t totals[16], rollovers[16];
    size_t bytes = 0;
    uint32_t meters = 0;

    memset(kept, 0, sizeof kept);
    memset(own, 0, sizeof own);
    HOLDS(gritstrut_record_count(51) == 4 && gritstrut_record_count(48) == 3 && gritstrut_record_count(0) == 0);
    HOLDS(gritstrut_mend_records(records, 51, kept, reasons, &mended) == GRITSTRUT_DONE);
    HOLDS(gritstrut_mend(records, 51, own, 51, why, 4, totals, 16, rollovers, 16, &bytes, &meters) == GRITSTRUT_DONE);
    HOLDS(same(kept, own, sizeof kept) && same(reasons, why, sizeof why) && same(totals, mended.totals, sizeof totals));
    HOLDS(same(rollovers, mended.rollovers, sizeof rollovers) && bytes == mended.kept_bytes && meters == mended.meters);
    HOLDS(bytes == 32 && meters == 2 && mended.totals[1] == 5 && mended.rollovers[1] == 1);
    HOLDS(strcmp(gritstrut_reason_word(reasons[2]), "minute not later") == 0 && strcmp(gritstrut_reason_word(reasons[3]), "short") == 0);
    HOLDS(gritstrut_mend_records(NULL, 0, NULL, NULL, &mended) == GRITSTRUT_DONE && mended.kept_bytes == 0);
    HOLDS(gritstrut_mend_records(NULL, 1, kept, reasons, &mended) == GRITSTRUT_LENGTH);
}

static void try_step(void)
{
    static const uint8_t kinds[3] = {GRITSTRUT_FLOOR, GRITSTRUT_EQUALITY, GRITSTRUT_EQUALITY};
    static const double rows[3 * N] = {0, 0, 0, 1, 1, 1, -1, -1, 1, 1, -1, -1}, sums[3] = {70.2, -2.6, -2.6};
    static const double lower[N] = {1.0, -HUGE_VAL, -HUGE_VAL, -HUGE_VAL};
    const double zeros[N] = {0, 0, 0, 0}, open[N] = {HUGE_VAL, HUGE_VAL, HUGE_VAL, HUGE_VAL};
    static gritstrut_problem problem;
    static gritstrut_step_answer step;
    static uint8_t file[GRITSTRUT_FILE], plain[GRITSTRUT_FILE];
    double d[N], multipliers[3], relaxation = 0.0;
    uint64_t bits[N * N];
    uint32_t report[GRITSTRUT_REPORT], verdict[GRITSTRUT_VERDICT], place = 0;
    gritstrut_tally tally = {0, 0}, own = {0, 0};
    size_t written = 0, also = 0;

    problem.variables = N;
    problem.constraints = 2;
    problem.factor = unit;
    problem.kinds = kinds;
    problem.values = sums;
    problem.jacobian = rows;
    problem.lower = lower;
    HOLDS(gritstrut_solve_step(&problem, &step, &own, &work) == GRITSTRUT_DONE);
    HOLDS(gritstrut_strict_step(N, 2, unit, N * N, zeros, N, kinds, 2, sums, 2, zeros, 2, rows, 2 * N, lower, N, open, N, d, N,
                                multipliers, 2, &relaxation, report, GRITSTRUT_REPORT, &tally, LENT) == GRITSTRUT_DONE);
    HOLDS(same(d, step.d, sizeof d) && same(multipliers, step.multipliers, 2 * sizeof *d));
    HOLDS(relaxation == step.relaxation && same(report, step.report, sizeof report));
    HOLDS(own.rounds == tally.rounds && own.factorings == tally.factorings && tally.factorings > 0);
    HOLDS(gritstrut_check_step(&problem, &step, 1e-9, verdict, &work) == GRITSTRUT_DONE && verdict[GRITSTRUT_TEST] == 0);
    HOLDS(step.lower_multipliers[0] > 0.1 && step.upper_multipliers[0] == 0.0);
    step.d[3] += 1.0;
    HOLDS(gritstrut_check_step(&problem, &step, 1e-9, verdict, &work) == GRITSTRUT_DONE);
    HOLDS(strcmp(gritstrut_test_word(verdict), "stationarity") == 0 && strcmp(gritstrut_part_word(verdict), "variable") == 0);

    HOLDS(gritstrut_write_problem_file(&problem, file, &written, &place, &work) == GRITSTRUT_DONE);
    {
        uint64_t zero[N], value[2], row[2 * N], low[N], high[N];
        memcpy(bits, unit, sizeof bits);
        memcpy(zero, zeros, sizeof zero);
        memcpy(value, sums, sizeof value);
        memcpy(row, rows, sizeof row);
        memcpy(low, lower, sizeof low);
        memcpy(high, open, sizeof high);
        HOLDS(gritstrut_write_problem(N, 2, bits, N * N, zero, N, kinds, 2, value, 2, zero, 2, row, 2 * N, low, N, high, N,
                                      plain, GRITSTRUT_FILE, &also, &place, LENT) == GRITSTRUT_DONE);
    }
    HOLDS(written == also && written > 0 && same(file, plain, written));

    problem.constraints = 3;
    HOLDS(gritstrut_solve_step(&problem, &step, NULL, &work) == GRITSTRUT_DONE);
    HOLDS(step.report[GRITSTRUT_EXACT_NUMBER] == GRITSTRUT_DEPENDENT);
    HOLDS(gritstrut_constraint_of(&problem, 0) == 1 && gritstrut_constraint_of(&problem, 1) == 2);
    problem.kinds = NULL;
    HOLDS(gritstrut_solve_step(&problem, &step, NULL, &work) == GRITSTRUT_LENGTH);
    problem.variables = 0;
    HOLDS(gritstrut_solve_step(&problem, &step, NULL, &work) == GRITSTRUT_SIZE);
    problem.variables = N;
    problem.constraints = 0;
    problem.values = problem.jacobian = NULL;
    problem.lower = open;
    HOLDS(gritstrut_solve_step(&problem, &step, NULL, &work) == GRITSTRUT_BOUND);
    HOLDS(step.report[GRITSTRUT_EXACT_PLACE] == 0);
    problem.lower = NULL;
    HOLDS(gritstrut_solve_step(&problem, &step, NULL, &work) == GRITSTRUT_DONE && step.d[0] == 0.0);
    problem.gradient = header;
    HOLDS(gritstrut_solve_step(&problem, &step, NULL, &work) == GRITSTRUT_DONE && step.d[0] == -1.0 && step.d[2] == 1.0);
}

static void try_hessian(void)
{
    static gritstrut_hessian hessian;
    const double s[2] = {1.0, 0.5}, y[2] = {4.0, 1.0};
    double b[4], out[2], l[4], own[4];

    HOLDS(gritstrut_reset_hessian(&hessian, 2, &work) == GRITSTRUT_DONE);
    HOLDS(gritstrut_update_hessian(&hessian, s, y, &work) == GRITSTRUT_DONE);
    HOLDS(gritstrut_identity(2, b, 4, LENT) == GRITSTRUT_DONE && gritstrut_update(2, b, 4, s, 2, y, 2, LENT) == GRITSTRUT_DONE);
    HOLDS(same(b, hessian.b, sizeof b));
    HOLDS(gritstrut_apply_hessian(&hessian, s, out, &work) == GRITSTRUT_DONE);
    HOLDS(gritstrut_times(2, b, 4, s, 2, own, 2, LENT) == GRITSTRUT_DONE && same(own, out, sizeof out));
    HOLDS(gritstrut_factor_hessian(&hessian, l, &work) == GRITSTRUT_DONE);
    HOLDS(gritstrut_cholesky(2, b, 4, own, 4, LENT) == GRITSTRUT_DONE && same(own, l, sizeof l));
    hessian.b[0] = -1.0;
    HOLDS(gritstrut_factor_hessian(&hessian, l, &work) == GRITSTRUT_PIVOT);
    HOLDS(gritstrut_reset_hessian(&hessian, 17, &work) == GRITSTRUT_SIZE);
}

static double value(size_t function, const double *x, void *context)
{
    ++*(int *)context;
    return function == 0 ? (x[0] - 1.0) * (x[0] - 1.0) + (x[1] - 2.5) * (x[1] - 2.5) : x[0] - 2.0 * x[1] + 2.0;
}

static void slopes(size_t function, const double *x, double *row, void *context)
{
    (void)context;
    row[0] = function == 0 ? 2.0 * (x[0] - 1.0) : 1.0;
    row[1] = function == 0 ? 2.0 * (x[1] - 2.5) : -2.0;
}

static void try_search(void)
{
    static const double start[2] = {2.0, 0.0};
    static const uint8_t kinds[1] = {GRITSTRUT_FLOOR};
    static gritstrut_aim aim;
    static gritstrut_search search;
    gritstrut_functions functions = {value, slopes, NULL};
    int calls = 0;
    uint32_t scheme;

    functions.context = &calls;
    aim.variables = 2;
    aim.constraints = 1;
    aim.kinds = kinds;
    aim.start = start;
    aim.ftol = 1e-12;
    aim.budget = 500;
    for (scheme = GRITSTRUT_SEARCH_TOLD; scheme <= GRITSTRUT_SEARCH_CENTRAL; scheme++) {
        aim.scheme = scheme;
        HOLDS(gritstrut_run_search(&aim, &functions, &search, &work) == GRITSTRUT_DONE);
        HOLDS(strcmp(gritstrut_search_word(&search), "converged") == 0 && calls > 0);
        HOLDS(fabs(gritstrut_accepted(&search)[0] - 1.4) < 1e-5 && fabs(gritstrut_accepted(&search)[1] - 1.7) < 1e-5);
        HOLDS(fabs(gritstrut_accepted_values(&search)[0] - 0.8) < 1e-5 && gritstrut_search_multipliers(&search)[0] > 0.0);
    }
    HOLDS(gritstrut_wanted(&search) == 0 && gritstrut_tell_search(&search, NULL, &work) == GRITSTRUT_UNASKED);
    aim.scheme = GRITSTRUT_SEARCH_TOLD;
    functions.slopes = NULL;
    HOLDS(gritstrut_run_search(&aim, &functions, &search, &work) == GRITSTRUT_LENGTH);
    aim.kinds = NULL;
    HOLDS(gritstrut_begin_search(&aim, &search, &work) == GRITSTRUT_LENGTH);
}

static void try_words(void)
{
    uint32_t number;
    for (number = 0; number <= GRITSTRUT_TRIANGLE; number++)
        HOLDS((strcmp(gritstrut_message(number), gritstrut_message(99)) == 0) == (number == 9));
    HOLDS(strcmp(gritstrut_place_word(GRITSTRUT_OF_SETTLE, GRITSTRUT_BOUND, 0), "limit") == 0);
    HOLDS(strcmp(gritstrut_place_word(GRITSTRUT_OF_SEARCH, GRITSTRUT_BOUND, 0), "variable") == 0);
    HOLDS(strcmp(gritstrut_place_word(GRITSTRUT_OF_RECONCILE, GRITSTRUT_DEPENDENT, 2), "balance") == 0);
    HOLDS(strcmp(gritstrut_place_word(GRITSTRUT_OF_STEP, GRITSTRUT_DEPENDENT, 2), "equality") == 0);
    HOLDS(gritstrut_place_word(GRITSTRUT_OF_SUSPECT, GRITSTRUT_DEFICIENT, 2) == NULL);
    HOLDS(gritstrut_place_word(GRITSTRUT_OF_SETTLE, GRITSTRUT_INFEASIBLE, 2) == NULL);
}

int main(void)
{
    if (gritstrut_version() != GRITSTRUT_VERSION_NUMBER) {
        printf("the library is of version %u, and the header of %u\n", (unsigned)gritstrut_version(),
               (unsigned)GRITSTRUT_VERSION_NUMBER);
        return 1;
    }
    try_least_squares();
    try_day();
    try_report();
    try_mending();
    try_step();
    try_hessian();
    try_search();
    try_words();
    printf("%d passed, %d failed\n", tried - failed, failed);
    return failed != 0;
}
