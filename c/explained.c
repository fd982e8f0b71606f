/*
 * Prints the runs of the job on standard input with their findings explained, as
 * `leverbonnet explain` does: of each run its first line of leverbonnet_sheet_text, and
 * then leverbonnet_explain_text of each of its findings. What stands in that text is put
 * together from leverbonnet_explain too, but for the words behind the numbers of a
 * condition. The two must be the same. A refused job prints its refusal.
 *
 * With a figure's file as its argument all goes by the figure, by the calls of the same
 * names that end in _by_figure. A refused figure prints its refusal.
 *
 * Status 0: printed; 1: something is not as it must be, which is told.
 */

#define PROGRAM "explained"
#include "given.h"

#include <inttypes.h>

/* With a 0 behind the characters. */
static uint8_t sheet[LEVERBONNET_TEXT_BYTES_MOST + 1];

/* By the figure, if there is one. */
static uint64_t explain(uint16_t run, leverbonnet_finding finding, uint8_t out[LEVERBONNET_EXPLANATION_BYTES_MOST])
{
    uint16_t rule = (uint16_t)finding.rule, place = (uint16_t)finding.place;
    if (by_figure)
        return leverbonnet_explain_by_figure(figure, figure_length, job, job_length, run, rule, place, out,
                                             LEVERBONNET_EXPLANATION_BYTES_MOST);
    return leverbonnet_explain(job, job_length, run, rule, place, out, LEVERBONNET_EXPLANATION_BYTES_MOST);
}

/* By the figure, if there is one. */
static uint64_t explain_text(uint16_t run, leverbonnet_finding finding,
                             uint8_t out[LEVERBONNET_EXPLANATION_TEXT_BYTES_MOST])
{
    uint16_t rule = (uint16_t)finding.rule, place = (uint16_t)finding.place;
    if (by_figure)
        return leverbonnet_explain_text_by_figure(figure, figure_length, job, job_length, run, rule, place, out,
                                                  LEVERBONNET_EXPLANATION_TEXT_BYTES_MOST);
    return leverbonnet_explain_text(job, job_length, run, rule, place, out, LEVERBONNET_EXPLANATION_TEXT_BYTES_MOST);
}

/* Whether the piece stands next in the text, which then goes on behind it. */
static int is_next(const char **text, const char *piece)
{
    size_t length = strlen(piece);
    if (strncmp(*text, piece, length) != 0)
        return 0;
    *text += length;
    return 1;
}

static int is_next_finding(const char **text, leverbonnet_finding finding)
{
    char piece[64];
    snprintf(piece, sizeof piece, "%s %u %u\n", finding.fault ? "FAULT" : "NOTE", finding.rule, finding.place);
    return is_next(text, piece);
}

/* A number of a condition: of rules 15 and 16 with its remainder. */
static int is_next_number(const char **text, unsigned rule, int64_t number, int64_t remainder)
{
    char piece[64];
    if (rule == 15 || rule == 16)
        snprintf(piece, sizeof piece, " %" PRId64 " REMAINDER %" PRId64, number, remainder);
    else
        snprintf(piece, sizeof piece, " %" PRId64, number);
    return is_next(text, piece);
}

static int is_next_condition(const char **text, unsigned rule, leverbonnet_condition condition)
{
    static const char *const ways[] = {"", " BELOW", " ABOVE", " EQUAL", " DIFFERS"};
    const char *end;
    if (condition.way < 1 || condition.way > 4)
        return 0;
    if (!is_next(text, "  COMPARED") || !is_next_number(text, rule, condition.left, condition.remainder) ||
        !is_next(text, ways[condition.way]) ||
        !is_next_number(text, rule, condition.right, condition.remainder_limit) || !is_next(text, "  "))
        return 0;
    end = strchr(*text, '\n');
    if (end == NULL || end == *text)
        return 0;
    *text = end + 1;
    return 1;
}

static int is_next_day(const char **text, leverbonnet_day day)
{
    static const char *const kinds[] = {"", "METER", "PITOT", "NOZZLE"};
    static const char *const sides[] = {"", "BEFORE", "AFTER"};
    char piece[64];
    if (day.kind < 1 || day.kind > 3 || day.side < 1 || day.side > 2)
        return 0;
    snprintf(piece, sizeof piece, "  CERTIFICATE %s %s ", kinds[day.kind], sides[day.side]);
    if (!is_next(text, piece))
        return 0;
    snprintf(piece, sizeof piece, "%u\n", day.day);
    return is_next(text, day.found ? piece : "NONE\n");
}

/* Whether the text is what the bytes of the explanation say. */
static int is_put_together(const char *text, leverbonnet_finding finding, const uint8_t *explanation)
{
    unsigned k;
    if (!is_next_finding(&text, finding))
        return 0;
    for (k = 0; k < leverbonnet_condition_count(explanation); k++)
        if (!is_next_condition(&text, finding.rule, leverbonnet_condition_of(explanation, k)))
            return 0;
    for (k = 0; k < leverbonnet_day_count(explanation); k++)
        if (!is_next_day(&text, leverbonnet_day_of(explanation, k)))
            return 0;
    return *text == 0;
}

static int print_explanation(uint16_t run, leverbonnet_finding finding)
{
    uint8_t explanation[LEVERBONNET_EXPLANATION_BYTES_MOST], text[LEVERBONNET_EXPLANATION_TEXT_BYTES_MOST + 1];
    uint64_t bytes = explain(run, finding, explanation), length = explain_text(run, finding, text);
    if (LEVERBONNET_REFUSAL(bytes) != 0 || LEVERBONNET_REFUSAL(length) != 0)
        return wrong("a finding of a run is refused");
    text[length] = 0;
    if (!is_put_together((const char *)text, finding, explanation))
        return wrong("the text is not that of the explanation put together");
    fputs((const char *)text, stdout);
    return 0;
}

/* The run whose first line the text stands at. */
static int print_run(uint16_t run, const char *text)
{
    uint8_t lines[LEVERBONNET_LINES_BYTES], findings[LEVERBONNET_FINDINGS_BYTES_MOST];
    uint64_t answer = reduce(run, lines, findings);
    uint32_t k;
    if (LEVERBONNET_REFUSAL(answer) != 0)
        return wrong("a run of a job that is read was refused");
    printf("%.*s\n", (int)strcspn(text, "\n"), text);
    for (k = 0; k < LEVERBONNET_VALUE(answer) % LEVERBONNET_ACCEPTED; k++)
        if (print_explanation(run, leverbonnet_finding_of(findings, k)) != 0)
            return 1;
    return 0;
}

/* Each line of the sheet that begins with RUN is a run's first. */
static int print_runs(void)
{
    const char *text = (const char *)sheet;
    uint16_t index = 0;
    while ((text = strstr(text, "RUN ")) != NULL) {
        uint64_t run = leverbonnet_run_number(job, job_length, index++);
        if (LEVERBONNET_REFUSAL(run) != 0)
            return wrong("the sheet has more runs than the job");
        if (print_run((uint16_t)LEVERBONNET_VALUE(run), text) != 0)
            return 1;
        text += strcspn(text, "\n");
    }
    return index == LEVERBONNET_VALUE(leverbonnet_run_count(job, job_length)) ? 0 : wrong("the sheet has fewer runs");
}

int main(int count, char **words)
{
    uint64_t answer;
    if (read_given(count, words) != 0)
        return 1;
    answer = sheet_text(sheet);
    if (LEVERBONNET_REFUSAL(answer) != 0)
        print_refusal(answer);
    else if (print_runs() != 0)
        return 1;
    return written();
}
