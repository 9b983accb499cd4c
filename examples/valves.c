/* Two valves of equal percentage feed a nitrogen header: which openings and which pressure in the
 * header meet a demand of 520 m3/h, leave each compressor its least flow, and lie nearest to their
 * set points? docs/SEARCH.md says how to build it.
 *
 *     valves            slopes are told
 *     valves forward    they are worked out from forward differences
 *     valves central    from central ones
 *
 * To search for something else, change the part between the two lines of dashes: the sizes, the
 * kinds, the bounds, value() and slope(). */
#include <math.h>
#include <stdio.h>
#include <string.h>
#include "gritstrut_easy.h"

/* ---------------------------------------------------------------------------------- the problem */

enum { VARIABLES = 3, CONSTRAINTS = 3, FUNCTIONS = 1 + CONSTRAINTS };

/* The variables: two openings, from closed to open, and the header's pressure in bar. */
enum { FIRST, SECOND, HEADER };

static const char *const names[VARIABLES] = {"first opening", "second opening", "header"};
static const double set_points[VARIABLES] = {0.60, 0.55, 6.0};
/* They keep the header below both supplies: beyond them a flow would be NaN, which ends a run. */
static const double lower[VARIABLES] = {0.05, 0.05, 5.5};
static const double upper[VARIABLES] = {1.0, 1.0, 6.5};

/* The functions: the objective first, then each constraint. Wanted is the least distance, with
 * balance = 0 (an equality) and both spare flows >= 0 (floors). */
enum { DISTANCE, BALANCE, SPARE_FIRST, SPARE_SECOND };

static const uint8_t kinds[CONSTRAINTS] = {GRITSTRUT_EQUALITY, GRITSTRUT_FLOOR, GRITSTRUT_FLOOR};

static const double demand = 520.0;                 /* m3/h */
static const double least_flows[] = {150.0, 190.0}; /* m3/h, of the compressors before the valves */
static const double sizes[] = {900.0, 700.0};       /* m3/h, fully open with 1 bar across */
static const double supplies[] = {8.0, 7.2};        /* bar, before the valves */
static const double range = 50.0;                   /* the flow when open over that when closed */

/* The flow through a valve, FIRST or SECOND, at x. */
static double flow(int valve, const double *x) {
    double across = supplies[valve] - x[HEADER];
    return sizes[valve] * pow(range, x[valve] - 1.0) * sqrt(across);
}

/* Its slope along a variable. */
static double flow_slope(int valve, int variable, const double *x) {
    double across = supplies[valve] - x[HEADER];
    if (variable == HEADER) return -0.5 * flow(valve, x) / across;
    return variable == valve ? log(range) * flow(valve, x) : 0.0;
}

/* The value of a function at x. */
static double value(int function, const double *x) {
    double sum = 0.0;
    switch (function) {
    case DISTANCE:
        for (int i = 0; i < VARIABLES; i++) sum += (x[i] - set_points[i]) * (x[i] - set_points[i]);
        return sum;
    case BALANCE:
        return flow(FIRST, x) + flow(SECOND, x) - demand;
    case SPARE_FIRST:
        return flow(FIRST, x) - least_flows[FIRST];
    default:
        return flow(SECOND, x) - least_flows[SECOND];
    }
}

/* Its slope along a variable: asked for only where slopes are told. */
static double slope(int function, int variable, const double *x) {
    switch (function) {
    case DISTANCE:
        return 2.0 * (x[variable] - set_points[variable]);
    case BALANCE:
        return flow_slope(FIRST, variable, x) + flow_slope(SECOND, variable, x);
    case SPARE_FIRST:
        return flow_slope(FIRST, variable, x);
    default:
        return flow_slope(SECOND, variable, x);
    }
}

/* ----------------------------------------------------------------------------------- the search */

/* All that the search knows, and the workspace that it is lent. */
static gritstrut_search search;
static gritstrut_workspace work;
static gritstrut_aim aim;

/* How often the objective's value was worked out: this is what the budget counts. */
static unsigned evaluations = 0;

/* The answer to the question that stands. */
static void answer(double *told) {
    const double *point = gritstrut_point(&search);
    int function, i, j;
    switch (gritstrut_asked(&search)) {
    case GRITSTRUT_SEARCH_START: /* all values, the objective's first */
    case GRITSTRUT_SEARCH_TRIAL:
        for (j = 0; j < FUNCTIONS; j++) told[j] = value(j, point);
        evaluations++;
        break;
    case GRITSTRUT_SEARCH_SLOPES: /* all slopes, the objective's row first */
        for (j = 0; j < FUNCTIONS; j++)
            for (i = 0; i < VARIABLES; i++) told[j * VARIABLES + i] = slope(j, i, point);
        break;
    default: /* the value of one function, a coordinate raised or lowered */
        function = (int)GRITSTRUT_SEARCH_FUNCTION(search.words);
        told[0] = value(function, point);
        if (function == DISTANCE) evaluations++;
    }
}

/* The largest violation of a constraint, by the values at a point. */
static double violation(const double *values) {
    double balance = fabs(values[BALANCE]);
    return fmax(balance, fmax(-values[SPARE_FIRST], -values[SPARE_SECOND]));
}

/* A line for the accepted point, where it is known and is not the one that was shown last. */
static void show_accepted(void) {
    static double shown[VARIABLES];
    static int lines = 0;
    const double *x = gritstrut_accepted(&search);
    const double *values = gritstrut_accepted_values(&search);
    if (values[DISTANCE] != values[DISTANCE]) return; /* NaN: not known yet */
    if (lines > 0 && memcmp(shown, x, sizeof shown) == 0) return;
    printf("%11u %13.9f %12.1e\n", evaluations, values[DISTANCE], violation(values));
    memcpy(shown, x, sizeof shown);
    lines++;
}

int main(int argc, char **argv) {
    const double *x = gritstrut_accepted(&search);
    /* bench/valves.py has the answer with 60 digits */
    const double exact[VARIABLES] = {0.6541058292025478, 0.6419612970802866, 5.9868761104890575};
    double told[FUNCTIONS * VARIABLES], away = 0.0;
    uint32_t number;
    int i;

    aim.variables = VARIABLES;
    aim.constraints = CONSTRAINTS;
    aim.kinds = kinds;
    aim.lower = lower;
    aim.upper = upper;
    aim.start = set_points;
    aim.ftol = 1e-9;
    aim.budget = 200;
    aim.scheme = GRITSTRUT_SEARCH_TOLD;
    if (argc > 1 && strcmp(argv[1], "forward") == 0) aim.scheme = GRITSTRUT_SEARCH_FORWARD;
    if (argc > 1 && strcmp(argv[1], "central") == 0) aim.scheme = GRITSTRUT_SEARCH_CENTRAL;

    number = gritstrut_begin_search(&aim, &search, &work);
    if (number == GRITSTRUT_BOUND) printf("the bounds of the %s mean nothing\n", names[search.place]);

    puts("evaluations     objective    violation");
    while (number == GRITSTRUT_DONE && gritstrut_wanted(&search) > 0) {
        answer(told);
        number = gritstrut_tell_search(&search, told, &work);
        show_accepted();
    }
    if (number != GRITSTRUT_DONE && number != GRITSTRUT_NONFINITE) {
        printf("refused %u: %s\n", (unsigned)number, gritstrut_message(number));
        return 1;
    }

    for (i = 0; i < VARIABLES; i++) away = fmax(away, fabs(x[i] - exact[i]));
    printf("%s: openings %.4f and %.4f, header at %.4f bar, flows %.2f and %.2f m3/h\n",
           gritstrut_search_word(&search), x[FIRST], x[SECOND], x[HEADER], flow(FIRST, x),
           flow(SECOND, x));
    printf("%u evaluations, away from the answer by %.1e\n", evaluations, away);
    return gritstrut_asked(&search) != GRITSTRUT_SEARCH_CONVERGED;
}
