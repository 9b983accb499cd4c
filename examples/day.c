/* A day's reconciliation: four meters around one header, one of which rolled over in the night.
 *
 *     cc -std=c99 -Wall -Wextra -I include examples/day.c target/staticlib/libgritstrut.a -o target/day && target/day
 *
 * What comes in from two generators goes out to two vessels, so the header's balance is the first
 * two volumes less the other two. With any word after target/day the last reading has one digit too
 * many, to show a refusal that names its meter. */
#include <stdio.h>

#include "gritstrut_easy.h"

enum { METERS = 4 };

static gritstrut_workspace work;
static gritstrut_readings day;
static gritstrut_reconciled reconciled;

int main(int argc, char **argv)
{
    const char *const names[METERS] = {"generator A", "generator B", "vessel 1", "vessel 2"};
    const uint32_t before[METERS] = {431250, 999710, 20000, 750300};
    uint32_t after[METERS] = {432450, 500, 21310, 751000};
    const double spreads[METERS] = {10.0, 10.0, 20.0, 5.0};
    const double header[METERS] = {1.0, 1.0, -1.0, -1.0};
    uint32_t number;
    int i;

    (void)argv;
    if (argc > 1) after[METERS - 1] = 7510000;
    day.meters = METERS;
    day.balances = 1;
    day.before = before;
    day.after = after;
    day.spreads = spreads;
    day.balance_rows = header;
    number = gritstrut_reconcile_readings(&day, &reconciled, &work);
    if (number != GRITSTRUT_DONE) {
        const char *counted = gritstrut_place_word(GRITSTRUT_OF_RECONCILE, number, day.balances);
        printf("refused %u: %s", (unsigned)number, gritstrut_message(number));
        if (counted != NULL) printf(" (%s %u)", counted, (unsigned)reconciled.place);
        if (number == GRITSTRUT_TOTALISER || number == GRITSTRUT_SPREAD)
            printf(": look at %s", names[reconciled.place]);
        printf("\n");
        return 1;
    }
    printf("%-12s %7s %7s %11s\n", "meter", "before", "after", "corrected");
    for (i = 0; i < METERS; i++)
        printf("%-12s %7u %7u %11.3f%s\n", names[i], (unsigned)before[i], (unsigned)after[i],
               reconciled.volumes[i], reconciled.named[i] ? " look at this meter" : "");
    return 0;
}
