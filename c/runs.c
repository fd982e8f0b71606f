/*
 * Prints every run of the job on standard input in words.
 *
 * Status 0: printed; 2: the job was refused, which is told; 1: any other trouble.
 */

#include "leverbonnet_words.h"

#include <stdio.h>

/* One byte more than the longest job shows a file that is longer. */
static uint8_t job[LEVERBONNET_JOB_BYTES_MOST + 1];

/* A run of a job that was read, so that nothing here is refused. */
static void print_run(size_t length, uint16_t run)
{
    uint8_t lines[LEVERBONNET_LINES_BYTES], findings[LEVERBONNET_FINDINGS_BYTES_MOST];
    char words[LEVERBONNET_WORDS_BYTES_MOST];
    uint64_t answer = leverbonnet_reduce(job, length, run, lines, sizeof lines, findings, sizeof findings);
    uint32_t count = LEVERBONNET_VALUE(answer) % LEVERBONNET_ACCEPTED, index;
    unsigned number;

    printf("Run %u is %s.\n", (unsigned)run, LEVERBONNET_VALUE(answer) >= LEVERBONNET_ACCEPTED ? "ACCEPTED" : "VOID");
    for (number = 1; number <= 20; number++) {
        leverbonnet_line_words(leverbonnet_line_of(lines, number), words, sizeof words);
        puts(words);
    }
    for (index = 0; index < count; index++) {
        leverbonnet_finding_words(leverbonnet_finding_of(findings, index), words, sizeof words);
        puts(words);
    }
}

int main(void)
{
    size_t length = fread(job, 1, sizeof job, stdin);
    uint64_t runs = leverbonnet_run_count(job, length);
    char words[LEVERBONNET_WORDS_BYTES_MOST];
    uint16_t index;

    if (ferror(stdin)) {
        fputs("runs: standard input can not be read.\n", stderr);
        return 1;
    }
    if (LEVERBONNET_REFUSAL(runs) != 0) {
        leverbonnet_refusal_words(runs, words, sizeof words);
        fprintf(stderr, "runs: %s.\n", words);
        return 2;
    }
    for (index = 0; index < LEVERBONNET_VALUE(runs); index++) {
        if (index > 0)
            putchar('\n');
        print_run(length, (uint16_t)LEVERBONNET_VALUE(leverbonnet_run_number(job, length, index)));
    }
    if (fflush(stdout) != 0 || ferror(stdout)) {
        fputs("runs: standard output can not be written.\n", stderr);
        return 1;
    }
    return 0;
}
