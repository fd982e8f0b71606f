/*
 * Prints the sheets of the job on standard input as a program in C or C++ gets
 * them: once as text, from leverbonnet_sheet_text, and once put together from
 * leverbonnet_run_count, leverbonnet_run_number and leverbonnet_reduce. The two
 * must be the same. A refused job prints its refusal.
 *
 * With a figure's file as its argument both go by the figure, by the calls of the
 * same names that end in _by_figure. A refused figure prints its refusal.
 *
 * Status 0: printed; 1: something is not as it must be, which is told.
 */

#define PROGRAM "sheets"
#include "given.h"

#include <inttypes.h>

static uint8_t text[LEVERBONNET_TEXT_BYTES_MOST];
static char put[LEVERBONNET_TEXT_BYTES_MOST + 1];
static size_t put_length;

static void put_text(const char *piece)
{
    size_t length = strlen(piece);
    if (put_length + length < sizeof put) {
        memcpy(put + put_length, piece, length + 1);
        put_length += length;
    }
}

static void put_line(leverbonnet_line line)
{
    char piece[64];
    if (line.present)
        snprintf(piece, sizeof piece, "%u %" PRId64 "\n", line.number, line.value);
    else
        snprintf(piece, sizeof piece, "%u -\n", line.number);
    put_text(piece);
}

static void put_finding(leverbonnet_finding finding)
{
    char piece[64];
    snprintf(piece, sizeof piece, "%s %u %u\n", finding.fault ? "FAULT" : "NOTE", finding.rule, finding.place);
    put_text(piece);
}

/* The run at that index, put together. */
static int put_run(uint16_t index)
{
    uint8_t lines[LEVERBONNET_LINES_BYTES], findings[LEVERBONNET_FINDINGS_BYTES_MOST];
    uint64_t run = leverbonnet_run_number(job, job_length, index);
    uint64_t answer = reduce((uint16_t)LEVERBONNET_VALUE(run), lines, findings);
    uint32_t value = LEVERBONNET_VALUE(answer), k;
    char piece[64];
    if (LEVERBONNET_REFUSAL(run) != 0 || LEVERBONNET_REFUSAL(answer) != 0)
        return wrong("a run of a job that is read was refused");
    snprintf(piece, sizeof piece, "RUN %u %s\n", (unsigned)LEVERBONNET_VALUE(run),
             value >= LEVERBONNET_ACCEPTED ? "ACCEPTED" : "VOID");
    put_text(piece);
    for (k = 1; k <= 20; k++)
        put_line(leverbonnet_line_of(lines, k));
    for (k = 0; k < value % LEVERBONNET_ACCEPTED; k++)
        put_finding(leverbonnet_finding_of(findings, k));
    return 0;
}

/* Holds the text of a job that is read to its runs put together. */
static int same_put_together(uint32_t text_length)
{
    uint64_t runs = leverbonnet_run_count(job, job_length);
    uint16_t index;
    if (LEVERBONNET_REFUSAL(runs) != 0)
        return wrong("a job that has a text has no runs");
    for (index = 0; index < LEVERBONNET_VALUE(runs); index++)
        if (put_run(index) != 0)
            return 1;
    if (put_length != text_length || memcmp(put, text, text_length) != 0)
        return wrong("the text is not that of the runs put together");
    return 0;
}

int main(int count, char **words)
{
    uint64_t answer;
    uint32_t value;
    if (read_given(count, words) != 0)
        return 1;
    answer = sheet_text(text);
    value = LEVERBONNET_VALUE(answer);
    if (LEVERBONNET_REFUSAL(answer) != 0)
        print_refusal(answer);
    else if (same_put_together(value) != 0)
        return 1;
    else
        fwrite(text, 1, value, stdout);
    return written();
}
