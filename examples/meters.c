/* Four meters around one header: what comes in from two generators goes out to two vessels.
 *
 *     cc -std=c99 -Wall -Wextra -I include examples/meters.c target/staticlib/libgritstrut.a -o target/meters && target/meters
 *
 * The corrections d of the measured flows are the least squares, each weighed by its meter's
 * spread, such that the corrected flows balance and none is below zero. With any word after
 * target/meters the header's balance is entered twice, behind a band on vessel 2, to show what the
 * report then says. Last the step is checked, as one that was pasted from elsewhere would be.
 *
 * With -o FILE in front of that word the problem is written to FILE, as the record program reads
 * it, and the answer is printed as that program prints it, bit for bit: whoever has the file can
 * run the day again. */
#include <stdio.h>

#include "gritstrut_easy.h"

enum { METERS = 4, ROWS = 3 };

static gritstrut_workspace work;
static gritstrut_problem problem;
static gritstrut_step_answer step;

/* Writes the problem's file. 0 where that is done. */
static int write_problem(const char *name)
{
    static uint8_t file[GRITSTRUT_FILE];
    size_t written = 0;
    uint32_t variable;
    uint32_t number = gritstrut_write_problem_file(&problem, file, &written, &variable, &work);
    FILE *out;
    int failed;
    if (number != GRITSTRUT_DONE) {
        fprintf(stderr, "no file: refused %u: %s\n", (unsigned)number, gritstrut_message(number));
        return 1;
    }
    out = fopen(name, "wb");
    failed = out == NULL || fwrite(file, 1, written, out) != written;
    if (out != NULL && fclose(out) != 0) failed = 1;
    if (failed) fprintf(stderr, "%s could not be written\n", name);
    return failed;
}

/* A value as the record program prints it. */
static void print_bits(double value)
{
    uint64_t bits;
    memcpy(&bits, &value, sizeof bits);
    if (value != value)
        printf("nan\n");
    else
        printf("%016llx\n", (unsigned long long)bits);
}

/* The answer as the record program prints it. */
static void print_records(void)
{
    unsigned i;
    printf("ok\nrelaxation ");
    print_bits(step.relaxation);
    for (i = 0; i < problem.variables; i++) {
        printf("d %u ", i);
        print_bits(step.d[i]);
    }
    for (i = 0; i < problem.constraints; i++) {
        printf("m %u ", i);
        print_bits(step.multipliers[i]);
    }
}

int main(int argc, char **argv)
{
    const char *file = argc > 2 && strcmp(argv[1], "-o") == 0 ? argv[2] : NULL;
    const int words = file != NULL ? argc - 2 : argc;
    const char *const names[METERS] = {"generator A", "generator B", "vessel 1", "vessel 2"};
    const double measured[METERS] = {120.4, 79.1, 131.9, 70.2};
    const double spread[METERS] = {1.0, 1.0, 2.0, 0.5};

    /* The header; and beside it, where it is to be entered twice, a band from 50 to 90 on vessel 2,
     * whose width is 40, and the header again. A row's value is what it comes to as measured. */
    const char *const rows[ROWS] = {"header", "band of vessel 2", "header, second entry"};
    const double coefficients[ROWS * METERS] = {
        1.0, 1.0, -1.0, -1.0,
        0.0, 0.0, 0.0, 1.0,
        1.0, 1.0, -1.0, -1.0,
    };
    const double offsets[ROWS] = {0.0, -50.0, 0.0};
    const uint8_t kinds[ROWS] = {GRITSTRUT_EQUALITY, GRITSTRUT_BAND, GRITSTRUT_EQUALITY};
    const double widths[ROWS] = {0.0, 40.0, 0.0};

    double factor[METERS * METERS] = {0.0};
    double lower[METERS], values[ROWS] = {0.0}, left = 0.0;
    uint32_t verdict[GRITSTRUT_VERDICT], number;
    int i, j, reported;

    for (i = 0; i < METERS; i++) {
        factor[i * METERS + i] = 1.0 / spread[i];
        lower[i] = -measured[i];
    }
    for (j = 0; j < ROWS; j++) {
        values[j] = offsets[j];
        for (i = 0; i < METERS; i++) values[j] += coefficients[j * METERS + i] * measured[i];
    }
    problem.variables = METERS;
    problem.constraints = words > 1 ? ROWS : 1;
    problem.factor = factor;
    problem.kinds = kinds;
    problem.values = values;
    problem.widths = widths;
    problem.jacobian = coefficients;
    problem.lower = lower;
    if (file != NULL && write_problem(file)) return 1;
    number = gritstrut_solve_step(&problem, &step, NULL, &work);
    if (file != NULL && number == GRITSTRUT_DONE) {
        print_records();
        return 0;
    }
    /* The report is written with 0, 5, 6 and 7: a step can come out although a balance stands twice. */
    reported = number == GRITSTRUT_DONE || (number >= GRITSTRUT_DEFICIENT && number <= GRITSTRUT_CAPPED);
    if (reported && step.report[GRITSTRUT_EXACT_NUMBER] == GRITSTRUT_DEPENDENT) {
        const uint32_t place = step.report[GRITSTRUT_EXACT_PLACE];
        const size_t row = gritstrut_constraint_of(&problem, place);
        printf("\"%s\" (row %u, balance %u) follows from the other balances: was one entered twice?\n",
               rows[row], (unsigned)row, (unsigned)place);
        printf("The balances were loosened to get any answer: take one of them out and run again.\n");
    }
    if (number != GRITSTRUT_DONE) {
        printf("refused %u: %s\n", (unsigned)number, gritstrut_message(number));
        return 1;
    }
    printf("%-12s %10s %10s\n", "meter", "measured", "corrected");
    for (i = 0; i < METERS; i++) {
        printf("%-12s %10.3f %10.3f\n", names[i], measured[i], measured[i] + step.d[i]);
        left += coefficients[i] * (measured[i] + step.d[i]);
    }
    printf("header: %.3f before, %.3f after; multiplier %.6f, relaxation %.3f\n", values[0], left,
           step.multipliers[0], step.relaxation);

    /* The tolerance is a millionth, in flows and in what the tests make of them. */
    number = gritstrut_check_step(&problem, &step, 1e-6, verdict, &work);
    if (number != GRITSTRUT_DONE) {
        printf("refused %u: %s\n", (unsigned)number, gritstrut_message(number));
        return 1;
    }
    if (verdict[GRITSTRUT_TEST] == 0)
        printf("the check: yes\n");
    else
        printf("the check: no, %s of %s %u\n", gritstrut_test_word(verdict),
               gritstrut_part_word(verdict), (unsigned)verdict[GRITSTRUT_INDEX]);
    return 0;
}
