/* The verdict on a day's sheet, without a program to run: prints the first line of the report, and
 * ends with the status that the command has (docs/MANUAL.md, "Exit statuses").
 *
 *     cc -std=c99 -Wall -Wextra -I include examples/report.c target/staticlib/libgritstrut.a -o target/report
 *     target/report examples/plant.sheet; echo $?
 */
#include <stdio.h>

#include "gritstrut_easy.h"

enum { LONGEST = 65536 + 1 }; /* one byte more than a sheet may have: it is then told as too long */

static char sheet[LONGEST];
static gritstrut_day_report report;

/* Reads a sheet: how many bytes, or more than LONGEST where that failed. */
static size_t read_sheet(const char *name)
{
    FILE *file = name != NULL ? fopen(name, "rb") : stdin;
    size_t bytes;
    int failed;
    if (file == NULL) return LONGEST + 1;
    bytes = fread(sheet, 1, LONGEST, file);
    failed = ferror(file);
    if (file != stdin) fclose(file);
    return failed ? LONGEST + 1 : bytes;
}

int main(int count, char **words)
{
    size_t bytes;
    if (count > 2) {
        fprintf(stderr, "usage: %s [SHEET]\n", words[0]);
        return 2;
    }
    bytes = read_sheet(count > 1 ? words[1] : NULL);
    if (bytes > LONGEST) {
        perror(count > 1 ? words[1] : "standard input");
        return 3;
    }
    if (gritstrut_report_day(sheet, bytes, &report) != GRITSTRUT_DONE) return 3;
    fwrite(report.text, 1, report.first_line, stdout);
    putchar('\n');
    if (fflush(stdout) != 0) {
        perror("standard output");
        return 3;
    }
    return gritstrut_verdict_status(report.verdict);
}
