/*
 * Tries the calls and the words at their edges: layouts, NULL with length 0, versions,
 * numbers and findings that there are not, figures and outputs that are too short, texts
 * that are cut off. The job on standard input is examples/several-runs.job, whose run 1
 * has no finding.
 *
 * Status 0: all is as it must be; 1: something is not, which is told.
 */

#include "leverbonnet_words.h"

#include <stdio.h>
#include <string.h>

#define REFUSED(number, place) ((uint64_t)(number) << 32 | (place))

static uint8_t job[LEVERBONNET_JOB_BYTES_MOST + 1];
static size_t job_len;

/* A figure of one step in each list, which asks for the house rule's own 24 and 25 points at every distance; and a byte
 * too many. */
static const uint8_t figure[16] = {'F', 'I', 'G', 1, 0, 1, 0, 0, 24, 25, 1, 0, 0, 24, 25, 0};
static const size_t figure_len = sizeof figure - 1;
static int troubles;

static void must(int holds, const char *what)
{
    if (!holds) {
        fprintf(stderr, "edges: %s: this does not hold.\n", what);
        troubles++;
    }
}

#define MUST(condition) must(condition, #condition)

/* The number in 4 bytes, the lowest first. */
static uint32_t distance(const uint8_t *bytes)
{
    return (uint32_t)bytes[0] | (uint32_t)bytes[1] << 8 | (uint32_t)bytes[2] << 16 | (uint32_t)bytes[3] << 24;
}

/* 6 points on a diameter of 100 in stand at so many thousandths of it. */
static void round_layouts(void)
{
    static const uint32_t thousandths[6] = {44, 146, 296, 704, 854, 956};
    uint8_t out[25];
    size_t k;
    out[24] = 7;
    MUST(leverbonnet_round_layout(6, 1000, 250, out, sizeof out) == 24);
    MUST(out[24] == 7);
    for (k = 0; k < 6; k++)
        MUST(distance(out + 4 * k) == 100 * thousandths[k]);
    MUST(leverbonnet_round_layout(7, 1000, 250, out, sizeof out) == REFUSED(11, 0));
}

/* 12 cells of 10 by 10 in, four along the first side. */
static void rectangular_layouts(void)
{
    uint8_t out[96];
    size_t k;
    MUST(leverbonnet_rect_layout(12, 400, 300, out, sizeof out) == 96);
    for (k = 0; k < 12; k++) {
        MUST(distance(out + 8 * k) == 5000 + 10000 * (k % 4));
        MUST(distance(out + 8 * k + 4) == 5000 + 10000 * (k / 4));
    }
    MUST(leverbonnet_rect_layout(13, 400, 300, out, sizeof out) == REFUSED(11, 0));
}

/* Of length 0 any buffer may be NULL. */
static void no_job(void)
{
    MUST(leverbonnet_reduce(NULL, 0, 1, NULL, 0, NULL, 0) == REFUSED(1, 0));
    MUST(leverbonnet_run_count(NULL, 0) == REFUSED(1, 0));
    MUST(leverbonnet_run_number(NULL, 0, 0) == REFUSED(1, 0));
    MUST(leverbonnet_sheet_text(NULL, 0, NULL, 0) == REFUSED(1, 0));
    MUST(leverbonnet_explain(NULL, 0, 2, 5, 0, NULL, 0) == REFUSED(1, 0));
    MUST(leverbonnet_explain_text(NULL, 0, 2, 5, 0, NULL, 0) == REFUSED(1, 0));
}

/* Of length 0 any buffer may be NULL, and the figure is judged first. */
static void no_figure_or_no_job(void)
{
    MUST(leverbonnet_reduce_by_figure(NULL, 0, NULL, 0, 1, NULL, 0, NULL, 0) == REFUSED(14, 0));
    MUST(leverbonnet_reduce_by_figure(NULL, 0, job, job_len, 998, NULL, 0, NULL, 0) == REFUSED(14, 0));
    MUST(leverbonnet_reduce_by_figure(figure, figure_len, NULL, 0, 1, NULL, 0, NULL, 0) == REFUSED(1, 0));
    MUST(leverbonnet_sheet_text_by_figure(NULL, 0, NULL, 0, NULL, 0) == REFUSED(14, 0));
    MUST(leverbonnet_sheet_text_by_figure(NULL, 0, job, job_len, NULL, 0) == REFUSED(14, 0));
    MUST(leverbonnet_sheet_text_by_figure(figure, figure_len, NULL, 0, NULL, 0) == REFUSED(1, 0));
    MUST(leverbonnet_explain_by_figure(NULL, 0, NULL, 0, 998, 0, 0, NULL, 0) == REFUSED(14, 0));
    MUST(leverbonnet_explain_by_figure(figure, figure_len, NULL, 0, 2, 5, 0, NULL, 0) == REFUSED(1, 0));
    MUST(leverbonnet_explain_text_by_figure(NULL, 0, NULL, 0, 998, 0, 0, NULL, 0) == REFUSED(14, 0));
    MUST(leverbonnet_explain_text_by_figure(figure, figure_len, NULL, 0, 2, 5, 0, NULL, 0) == REFUSED(1, 0));
}

/* A figure that ends early is refused at its end, one that goes on at the first byte too many. */
static void figures_cut_short(void)
{
    size_t length;
    for (length = 0; length < figure_len; length++)
        MUST(leverbonnet_sheet_text_by_figure(figure, length, job, job_len, NULL, 0) == REFUSED(14, length));
    MUST(leverbonnet_sheet_text_by_figure(figure, figure_len, job, job_len, NULL, 0) == REFUSED(9, 0));
    MUST(leverbonnet_sheet_text_by_figure(figure, figure_len + 1, job, job_len, NULL, 0) == REFUSED(14, figure_len));
}

/* A field in trouble is told at its first byte, also where the figure ends behind it. */
static void figures_in_trouble(void)
{
    static const struct {
        size_t place, end;
        uint8_t value;
    } changes[] = {
        {0, 3, 'X'}, {3, 5, 2}, {5, 6, 0},   {5, 6, 17},   {8, 9, 0},    {8, 9, 49},
        {9, 10, 0},  {9, 10, 50}, {10, 11, 0}, {10, 11, 17}, {13, 14, 49}, {14, 15, 50},
    };
    size_t k;
    for (k = 0; k < sizeof changes / sizeof changes[0]; k++) {
        uint8_t changed[sizeof figure];
        uint64_t refused = REFUSED(14, changes[k].place);
        memcpy(changed, figure, sizeof figure);
        changed[changes[k].place] = changes[k].value;
        MUST(leverbonnet_sheet_text_by_figure(changed, figure_len, NULL, 0, NULL, 0) == refused);
        MUST(leverbonnet_sheet_text_by_figure(changed, changes[k].end, NULL, 0, NULL, 0) == refused);
        MUST(leverbonnet_reduce_by_figure(changed, figure_len, job, job_len, 1, NULL, 0, NULL, 0) == refused);
    }
}

/* Every run comes to the same by a figure that asks for what the house rule does. */
static void same_by_figure(void)
{
    static uint8_t text[LEVERBONNET_TEXT_BYTES_MOST], by_figure[LEVERBONNET_TEXT_BYTES_MOST];
    uint64_t length = leverbonnet_sheet_text(job, job_len, text, sizeof text);
    MUST(LEVERBONNET_REFUSAL(length) == 0);
    MUST(leverbonnet_sheet_text_by_figure(figure, figure_len, job, job_len, by_figure, (size_t)length) == length);
    MUST(memcmp(text, by_figure, (size_t)length) == 0);
    memset(by_figure, 7, sizeof by_figure);
    MUST(leverbonnet_sheet_text_by_figure(figure, figure_len, job, job_len, by_figure, (size_t)length - 1) ==
         REFUSED(9, 0));
    MUST(by_figure[0] == 7 && memcmp(by_figure, by_figure + 1, sizeof by_figure - 1) == 0);
}

/* Run 2 has two findings: exact room suffices, a byte less does not, and a refusal changes no byte. */
static void outputs_by_figure(void)
{
    uint8_t lines[LEVERBONNET_LINES_BYTES + 1], findings[2 * LEVERBONNET_FINDING_BYTES + 1];
    uint8_t same_lines[LEVERBONNET_LINES_BYTES], same_findings[2 * LEVERBONNET_FINDING_BYTES];
    size_t few_lines = sizeof same_lines - 1, few_findings = sizeof same_findings - 1;
    uint64_t answer = leverbonnet_reduce(job, job_len, 2, same_lines, sizeof same_lines, same_findings,
                                         sizeof same_findings);
    MUST(answer == LEVERBONNET_ACCEPTED + 2);
    memset(lines, 7, sizeof lines);
    memset(findings, 7, sizeof findings);
    MUST(leverbonnet_reduce_by_figure(figure, figure_len, job, job_len, 2, lines, few_lines, findings,
                                      sizeof findings) == REFUSED(9, 0));
    MUST(leverbonnet_reduce_by_figure(figure, figure_len, job, job_len, 2, lines, sizeof lines, findings,
                                      few_findings) == REFUSED(9, 0));
    MUST(leverbonnet_reduce_by_figure(figure, figure_len, job, job_len, 998, lines, few_lines, findings,
                                      sizeof findings) == REFUSED(10, 0));
    MUST(leverbonnet_reduce_by_figure(figure, figure_len - 1, job, job_len, 2, lines, sizeof lines, findings,
                                      sizeof findings) == REFUSED(14, figure_len - 1));
    MUST(lines[0] == 7 && memcmp(lines, lines + 1, sizeof lines - 1) == 0);
    MUST(findings[0] == 7 && memcmp(findings, findings + 1, sizeof findings - 1) == 0);
    MUST(leverbonnet_reduce_by_figure(figure, figure_len, job, job_len, 2, lines, sizeof lines, findings,
                                      sizeof findings) == answer);
    MUST(memcmp(lines, same_lines, sizeof same_lines) == 0 && lines[sizeof same_lines] == 7);
    MUST(memcmp(findings, same_findings, sizeof same_findings) == 0 && findings[sizeof same_findings] == 7);
    MUST(leverbonnet_reduce_by_figure(figure, figure_len, job, job_len, 2, lines, sizeof same_lines, findings,
                                      sizeof same_findings) == answer);
}

/* Each of the four calls, all by one name. */
enum { as_bytes, as_bytes_by_figure, as_text, as_text_by_figure, ways_to_explain };

static uint64_t explain(int way, uint16_t run, uint16_t rule, uint16_t place, uint8_t *out, size_t out_len)
{
    switch (way) {
    case as_bytes:
        return leverbonnet_explain(job, job_len, run, rule, place, out, out_len);
    case as_bytes_by_figure:
        return leverbonnet_explain_by_figure(figure, figure_len, job, job_len, run, rule, place, out, out_len);
    case as_text:
        return leverbonnet_explain_text(job, job_len, run, rule, place, out, out_len);
    default:
        return leverbonnet_explain_text_by_figure(figure, figure_len, job, job_len, run, rule, place, out, out_len);
    }
}

static int is_untouched(const uint8_t *bytes, size_t length)
{
    return length == 0 || (bytes[0] == 7 && memcmp(bytes, bytes + 1, length - 1) == 0);
}

/* Note 5 of run 2, explained: exact room suffices, any less does not, and no byte beyond is touched. */
static void explanations(void)
{
    uint8_t out[LEVERBONNET_EXPLANATION_TEXT_BYTES_MOST + 1];
    uint64_t length, room;
    int way;
    for (way = 0; way < ways_to_explain; way++) {
        memset(out, 7, sizeof out);
        length = explain(way, 2, 5, 0, out, sizeof out);
        MUST(length > 0 && length < sizeof out && is_untouched(out + length, sizeof out - (size_t)length));
        memset(out, 7, sizeof out);
        MUST(explain(way, 2, 5, 0, NULL, 0) == REFUSED(9, 0));
        for (room = 0; room < length && room < sizeof out; room++)
            MUST(explain(way, 2, 5, 0, out, (size_t)room) == REFUSED(9, 0));
        MUST(is_untouched(out, sizeof out));
        MUST(explain(way, 2, 5, 0, out, (size_t)length) == length);
        MUST(is_untouched(out + length, sizeof out - (size_t)length));
    }
}

/* A run or a finding that there is not is told before an output that is too short, and changes no byte. */
static void no_such_finding(void)
{
    static const uint16_t none[][2] = {{5, 1}, {4, 0}, {11, 0}, {11, 2}, {0, 0}, {13, 0}, {261, 0}, {65535, 65535}};
    uint8_t out[LEVERBONNET_EXPLANATION_TEXT_BYTES_MOST];
    size_t k;
    int way;
    memset(out, 7, sizeof out);
    for (way = 0; way < ways_to_explain; way++) {
        MUST(explain(way, 998, 5, 0, out, sizeof out) == REFUSED(10, 0));
        MUST(explain(way, 998, 0, 0, NULL, 0) == REFUSED(10, 0));
        MUST(explain(way, 1, 5, 0, out, sizeof out) == REFUSED(15, 0));
        for (k = 0; k < sizeof none / sizeof none[0]; k++) {
            MUST(explain(way, 2, none[k][0], none[k][1], out, sizeof out) == REFUSED(15, 0));
            MUST(explain(way, 2, none[k][0], none[k][1], NULL, 0) == REFUSED(15, 0));
        }
    }
    MUST(leverbonnet_explain_by_figure(figure, 3, NULL, 0, 998, 0, 0, out, sizeof out) == REFUSED(14, 3));
    MUST(leverbonnet_explain_text_by_figure(figure, 3, NULL, 0, 998, 0, 0, out, sizeof out) == REFUSED(14, 3));
    MUST(is_untouched(out, sizeof out));
}

/* Run 2's factor was 1.0300 on day 8980 and 0.9700 on day 9020: 20 times 600 is above 10,300. */
static void explanation_taken_apart(void)
{
    uint8_t out[LEVERBONNET_EXPLANATION_BYTES_MOST];
    leverbonnet_condition moved;
    leverbonnet_day before, after;
    MUST(explain(as_bytes, 2, 5, 0, out, sizeof out) == 2 + LEVERBONNET_CONDITION_BYTES + 2 * LEVERBONNET_DAY_BYTES);
    MUST(leverbonnet_condition_count(out) == 1 && leverbonnet_day_count(out) == 2);
    moved = leverbonnet_condition_of(out, 0);
    MUST(moved.which == 1 && moved.way == 2 && moved.left == 12000 && moved.right == 10300);
    MUST(moved.remainder == 0 && moved.remainder_limit == 0);
    before = leverbonnet_day_of(out, 0);
    MUST(before.kind == 1 && before.side == 1 && before.found && before.day == 8980);
    after = leverbonnet_day_of(out, 1);
    MUST(after.kind == 1 && after.side == 2 && after.found && after.day == 9020);
    /* Nothing is certified of the meter of run 10. */
    MUST(explain(as_bytes, 10, 1, 0, out, sizeof out) == 2 + 2 * LEVERBONNET_DAY_BYTES);
    MUST(leverbonnet_condition_count(out) == 0 && leverbonnet_day_count(out) == 2);
    MUST(!leverbonnet_day_of(out, 0).found && leverbonnet_day_of(out, 0).day == 0);
    /* Run 13 caught less than nothing. */
    MUST(explain(as_bytes, 13, 20, 0, out, sizeof out) == 2 + LEVERBONNET_CONDITION_BYTES);
    MUST(leverbonnet_condition_of(out, 0).left == -24 && leverbonnet_day_count(out) == 0);
}

/* A header of version 1 or 2 is good, and its run is missing; any other version is refused for itself. */
static void versions(void)
{
    uint8_t header[9] = {'S', 'R', 'J', 0, 0, 0, 0, 1, 0};
    unsigned version;
    for (version = 0; version <= 65535; version++) {
        header[3] = (uint8_t)(version % 256);
        header[4] = (uint8_t)(version / 256);
        MUST(leverbonnet_run_count(header, sizeof header) ==
             (version == 1 || version == 2 ? REFUSED(1, sizeof header) : REFUSED(3, 3)));
    }
}

/* A run's own part has 64 bytes, in version 2 67. Once they are all there the run's number, which is 0, is judged. */
static void runs_cut_short(void)
{
    uint8_t start[9 + 67] = {'S', 'R', 'J', 1, 0, 0, 0, 1, 0};
    MUST(leverbonnet_run_count(start, 9 + 63) == REFUSED(1, 9 + 63));
    MUST(leverbonnet_run_count(start, 9 + 64) == REFUSED(5, 9));
    start[3] = 2;
    MUST(leverbonnet_run_count(start, 9 + 66) == REFUSED(1, 9 + 66));
    MUST(leverbonnet_run_count(start, 9 + 67) == REFUSED(5, 9));
}

static void no_output(void)
{
    uint8_t lines[LEVERBONNET_LINES_BYTES], findings[LEVERBONNET_FINDINGS_BYTES_MOST];
    MUST(leverbonnet_reduce(job, job_len, 1, NULL, 0, NULL, 0) == REFUSED(9, 0));
    MUST(leverbonnet_reduce(job, job_len, 1, NULL, 0, findings, sizeof findings) == REFUSED(9, 0));
    MUST(leverbonnet_reduce(job, job_len, 1, lines, sizeof lines, NULL, 0) == LEVERBONNET_ACCEPTED);
    MUST(leverbonnet_reduce(job, job_len, 2, lines, sizeof lines, NULL, 0) == REFUSED(9, 0));
    MUST(leverbonnet_reduce(job, job_len, 998, NULL, 0, NULL, 0) == REFUSED(10, 0));
    MUST(leverbonnet_sheet_text(job, job_len, NULL, 0) == REFUSED(9, 0));
    MUST(leverbonnet_round_layout(6, 1000, 250, NULL, 0) == REFUSED(9, 0));
    MUST(leverbonnet_round_layout(7, 1000, 250, NULL, 0) == REFUSED(11, 0));
    MUST(leverbonnet_rect_layout(12, 400, 300, NULL, 0) == REFUSED(9, 0));
    MUST(leverbonnet_rect_layout(13, 400, 300, NULL, 0) == REFUSED(11, 0));
}

static void line_must_read(unsigned number, int present, int64_t value, const char *expected)
{
    leverbonnet_line line;
    char words[LEVERBONNET_WORDS_BYTES_MOST];
    line.number = number;
    line.present = present;
    line.value = value;
    must(leverbonnet_line_words(line, words, sizeof words) == (int)strlen(expected), expected);
    must(strcmp(words, expected) == 0, expected);
}

static void lines_in_words(void)
{
    line_must_read(1, 1, 3600, " 1                  Time  3600 s");
    line_must_read(16, 1, 34089, "16           Nozzle area  0.00034089 ft2");
    line_must_read(18, 1, 9980, "18    Percent isokinetic  99.80 %");
    line_must_read(19, 1, -4, "19                 Catch  -0.4 mg");
    line_must_read(19, 1, INT64_MIN, "19                 Catch  -922337203685477580.8 mg");
    line_must_read(20, 1, 0, "20         Concentration  0.00000 gr/dscf");
    line_must_read(20, 0, 0, "20         Concentration  absent");
    line_must_read(21, 0, 0, "21          no such line  absent");
    line_must_read(21, 1, 5, "21          no such line  5");
}

static void finding_must_read(unsigned rule, int fault, unsigned place, const char *expected)
{
    leverbonnet_finding finding;
    char words[LEVERBONNET_WORDS_BYTES_MOST];
    finding.rule = rule;
    finding.fault = fault;
    finding.place = place;
    must(leverbonnet_finding_words(finding, words, sizeof words) == (int)strlen(expected), expected);
    must(strcmp(words, expected) == 0, expected);
}

static void findings_in_words(void)
{
    finding_must_read(1, 1, 0,
                      "Fault 1: the meter has no certificate of the run's day or earlier with the same maker, serial "
                      "and letter.");
    finding_must_read(5, 0, 0,
                      "Note 5: the meter's factor moved by more than 5 percent, and Y is the lower of the two.");
    finding_must_read(5, 1, 0,
                      "Fault 5: the meter's factor moved by more than 5 percent, and Y is the earlier of the two.");
    finding_must_read(5, 1, 3,
                      "Fault 5, place 3: the meter's factor moved by more than 5 percent, and Y is the earlier of the "
                      "two.");
    finding_must_read(11, 0, 1, "Note 11, segment 1: the leak rate is above the allowance.");
    finding_must_read(17, 1, 8,
                      "Fault 17, weighing 8: the two final weights differ by more than 0.5 mg and more than 1 percent of the "
                      "net weight.");
    finding_must_read(18, 1, 0, "Fault 18: no filter was weighed.");
    finding_must_read(13, 1, 0, "Fault 13: no rule has that number.");
    finding_must_read(255, 1, 3, "Fault 255, place 3: no rule has that number.");
}

static void refusal_must_read(uint64_t answer, const char *expected)
{
    char words[LEVERBONNET_WORDS_BYTES_MOST];
    must(leverbonnet_refusal_words(answer, words, sizeof words) == (int)strlen(expected), expected);
    must(strcmp(words, expected) == 0, expected);
}

static void refusals_in_words(void)
{
    refusal_must_read(REFUSED(3, 3), "refusal 3 at byte 3: the version is neither 1 nor 2");
    refusal_must_read(REFUSED(5, 167), "refusal 5 at byte 167: a field is out of its range");
    refusal_must_read(REFUSED(8, 265), "refusal 8 at byte 265: bytes are left over behind the last run");
    refusal_must_read(REFUSED(9, 0), "refusal 9: a lent output is too short");
    refusal_must_read(REFUSED(11, 0), "refusal 11: the layout is outside its ranges");
    refusal_must_read(REFUSED(14, 5),
                      "refusal 14 at byte 5 of the figure: the figure ends early, has a field out of range or order, or "
                      "has bytes left over");
    refusal_must_read(REFUSED(15, 0), "refusal 15: the run does not have that finding");
    refusal_must_read(REFUSED(16, 5), "refusal 16: no refusal has that number");
    refusal_must_read(REFUSED(99, 0), "refusal 99: no refusal has that number");
}

/* Whatever the number, the texts fit the room that is said to be enough. */
static void words_fit(void)
{
    leverbonnet_line line;
    leverbonnet_finding finding;
    line.present = 1;
    line.value = INT64_MIN;
    for (line.number = 0; line.number < 300; line.number++)
        MUST(leverbonnet_line_words(line, NULL, 0) < LEVERBONNET_WORDS_BYTES_MOST);
    for (finding.rule = 0; finding.rule < 256; finding.rule++)
        for (finding.place = 0; finding.place <= 65535; finding.place += 65535)
            for (finding.fault = 0; finding.fault <= 1; finding.fault++)
                MUST(leverbonnet_finding_words(finding, NULL, 0) < LEVERBONNET_WORDS_BYTES_MOST);
    for (finding.rule = 1; finding.rule < 300; finding.rule++)
        MUST(leverbonnet_refusal_words(REFUSED(finding.rule, UINT32_MAX), NULL, 0) < LEVERBONNET_WORDS_BYTES_MOST);
}

static void words_are_cut_off(void)
{
    char words[6] = "abcde";
    MUST(leverbonnet_refusal_words(REFUSED(9, 0), words, 4) == 37);
    MUST(memcmp(words, "ref\0e", 6) == 0);
}

static void no_such_number(void)
{
    uint8_t lines[LEVERBONNET_LINES_BYTES] = {1};
    MUST(!leverbonnet_line_of(lines, 0).present && !leverbonnet_line_of(lines, 21).present);
    MUST(strcmp(leverbonnet_line_name(0), "no such line") == 0);
    MUST(leverbonnet_line_unit(21)[0] == 0 && leverbonnet_line_decimals(21) == 0);
    MUST(strcmp(leverbonnet_rule_clause(0), "no rule has that number") == 0 && leverbonnet_rule_place(21)[0] == 0);
    MUST(leverbonnet_class_clause(0, 1)[0] == 0 && leverbonnet_class_clause(11, 0)[0] == 0);
    MUST(strcmp(leverbonnet_refusal_clause(12), "no refusal has that number") == 0);
}

int main(void)
{
    job_len = fread(job, 1, sizeof job, stdin);
    MUST(!ferror(stdin));
    round_layouts();
    rectangular_layouts();
    no_job();
    no_figure_or_no_job();
    figures_cut_short();
    figures_in_trouble();
    same_by_figure();
    outputs_by_figure();
    explanations();
    no_such_finding();
    explanation_taken_apart();
    versions();
    runs_cut_short();
    no_output();
    lines_in_words();
    findings_in_words();
    refusals_in_words();
    words_fit();
    words_are_cut_off();
    no_such_number();
    return troubles != 0;
}
