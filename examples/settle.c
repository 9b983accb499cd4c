/* A day that can be signed: four measured volumes around one header, none below zero, with a proved
 * bound on how far they can be from the best, and the tests of the meters against each other.
 *
 *     cc -std=c99 -Wall -Wextra -I include examples/settle.c target/staticlib/libgritstrut.a -o target/settle && target/settle
 */
#include <stdio.h>

#include "gritstrut_easy.h"

enum { METERS = 4 };

static gritstrut_workspace work;
static gritstrut_day day;
static gritstrut_settled settled;
static gritstrut_suspected suspected;

int main(void)
{
    const char *const names[METERS] = {"generator A", "generator B", "vessel 1", "vessel 2"};
    const double values[METERS] = {1200.0, 790.0, 1310.0, 700.0};
    const double spreads[METERS] = {10.0, 10.0, 20.0, 5.0};
    const double header[METERS] = {1.0, 1.0, -1.0, -1.0};
    uint32_t number;
    int i;

    day.meters = METERS;
    day.balances = 1;
    day.values = values;
    day.spreads = spreads;
    day.balance_rows = header;
    day.tolerance = 1e-3;
    day.nonnegative = 1;
    number = gritstrut_settle_day(&day, &settled, &work);
    if (number == GRITSTRUT_DONE) number = gritstrut_suspect_day(&day, &suspected, &work);
    if (number != GRITSTRUT_DONE) {
        printf("refused %u: %s\n", (unsigned)number, gritstrut_message(number));
        return 1;
    }
    printf("%-12s %10s %10s %8s\n", "meter", "measured", "settled", "test");
    for (i = 0; i < METERS; i++)
        printf("%-12s %10.3f %10.3f %8.3f\n", names[i], values[i], settled.volumes[i],
               suspected.tests[i]);
    printf("certain to %.1e spreads; the meters %s\n", settled.bound,
           suspected.finding.agree ? "agree" : "disagree");
    return 0;
}
