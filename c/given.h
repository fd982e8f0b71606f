/*
 * The job on standard input and the figure whose file is the only argument, if there is
 * one, for a program of this folder that goes by both; and the calls on them. The program
 * defines its name, PROGRAM, before.
 */

#ifndef GIVEN_H
#define GIVEN_H

#include "leverbonnet_words.h"

#include <stdio.h>
#include <string.h>

/* One byte more than the longest of each shows a file that is longer. */
static uint8_t job[LEVERBONNET_JOB_BYTES_MOST + 1];
static uint8_t figure[LEVERBONNET_FIGURE_BYTES_MOST + 1];
static size_t job_length, figure_length;
static int by_figure;

static int wrong(const char *what)
{
    fprintf(stderr, PROGRAM ": %s.\n", what);
    return 1;
}

static int read_figure(const char *name)
{
    FILE *file = fopen(name, "rb");
    int failed;
    if (file == NULL)
        return wrong("the figure can not be opened");
    figure_length = fread(figure, 1, sizeof figure, file);
    failed = ferror(file);
    fclose(file);
    by_figure = 1;
    return failed ? wrong("the figure can not be read") : 0;
}

static int read_given(int count, char **words)
{
    job_length = fread(job, 1, sizeof job, stdin);
    if (ferror(stdin))
        return wrong("standard input can not be read");
    if (count > 2)
        return wrong("name one figure, or none");
    return count == 2 ? read_figure(words[1]) : 0;
}

/* By the figure, if there is one. */
static uint64_t sheet_text(uint8_t text[LEVERBONNET_TEXT_BYTES_MOST])
{
    if (by_figure)
        return leverbonnet_sheet_text_by_figure(figure, figure_length, job, job_length, text,
                                                LEVERBONNET_TEXT_BYTES_MOST);
    return leverbonnet_sheet_text(job, job_length, text, LEVERBONNET_TEXT_BYTES_MOST);
}

/* By the figure, if there is one. */
static uint64_t reduce(uint16_t run, uint8_t lines[LEVERBONNET_LINES_BYTES],
                       uint8_t findings[LEVERBONNET_FINDINGS_BYTES_MOST])
{
    if (by_figure)
        return leverbonnet_reduce_by_figure(figure, figure_length, job, job_length, run, lines, LEVERBONNET_LINES_BYTES,
                                            findings, LEVERBONNET_FINDINGS_BYTES_MOST);
    return leverbonnet_reduce(job, job_length, run, lines, LEVERBONNET_LINES_BYTES, findings,
                              LEVERBONNET_FINDINGS_BYTES_MOST);
}

static void print_refusal(uint64_t answer)
{
    printf("REFUSED %u %u\n", (unsigned)LEVERBONNET_REFUSAL(answer), (unsigned)LEVERBONNET_VALUE(answer));
}

/* The status of a program that has printed all. */
static int written(void)
{
    return fflush(stdout) == 0 && !ferror(stdout) ? 0 : wrong("standard output can not be written");
}

#endif
