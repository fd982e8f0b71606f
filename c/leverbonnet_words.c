/*
 * Names and sentences for what the proved library writes (leverbonnet_words.h).
 * rust/src/texts.rs holds the same ones; a test of the Rust package holds the two
 * tables equal, row by row.
 */

#include "leverbonnet_words.h"

#include <inttypes.h>
#include <stdio.h>

/* Refusals up to last_refusal_of_job are about a byte of the job, refusal_of_figure about one of the figure. */
enum { line_count = 20, last_refusal_of_job = 8, refusal_of_figure = 14, note_class = 2 };

/* The bytes of an explanation before its first condition. */
enum { counts_length = 2 };

/* Line 1 first: its name, its unit, its decimals. */
static const struct {
    const char *name;
    const char *unit;
    unsigned decimals;
} line_texts[] = {
    {"Time", "s", 0},
    {"Metered volume", "ft3", 3},
    {"Corrected volume", "ft3", 3},
    {"Meter pressure", "in Hg", 4},
    {"Meter temperature", "R", 1},
    {"Dry standard volume", "ft3", 3},
    {"Water vapor", "ft3", 3},
    {"Moisture", "%", 3},
    {"Dry molecular weight", "lb/lb-mole", 3},
    {"Wet molecular weight", "lb/lb-mole", 3},
    {"Stack pressure", "in Hg", 4},
    {"Stack temperature", "R", 1},
    {"Mean root", "(in water)^0.5", 5},
    {"Density root", "(R lb-mole/in Hg lb)^0.5", 4},
    {"Velocity", "ft/s", 3},
    {"Nozzle area", "ft2", 8},
    {"Drawn gas", "% ft3 min/s", 3},
    {"Percent isokinetic", "%", 2},
    {"Catch", "mg", 1},
    {"Concentration", "gr/dscf", 5},
};

/* A rule, what it finds, and what its places count. */
static const struct {
    unsigned rule;
    const char *clause;
    const char *place;
} rule_texts[] = {
    {1, "the meter has no certificate of the run's day or earlier with the same maker, serial and letter", ""},
    {2, "the pitot tube has no certificate of the run's day or earlier with the same maker, serial and letter", ""},
    {3, "the nozzle has no certificate of the run's day or earlier with the same maker, serial and letter", ""},
    {4, "the meter has no certificate later than the run's day with the same maker, serial and letter", ""},
    {5, "the meter's factor moved by more than 5 percent", ""},
    {6, "the nozzle's highest and lowest diameters differ by more than 0.004 in", ""},
    {7, "the stack's diameter is below 12 in", ""},
    {8, "the next disturbance is nearer than half a diameter, or the last one nearer than two", ""},
    {9, "there are too few points, or a number of points that is not allowed", ""},
    {10, "the point was sampled for less than 120 seconds", "point"},
    {11, "the leak rate is above the allowance", "segment"},
    {12, "the corrected volume, line 3, is 0", ""},
    {14, "the velocity, line 15, is 0", ""},
    {15, "the percent isokinetic, line 18 before it is rounded, is below 90 percent", ""},
    {16, "the percent isokinetic, line 18 before it is rounded, is above 110 percent", ""},
    {17, "the two final weights differ by more than 0.5 mg and more than 1 percent of the net weight", "weighing"},
    {18, "no filter was weighed", ""},
    {19, "no rinse was weighed", ""},
    {20, "the catch, line 19, is negative", ""},
};

/* A rule, whether a finding of it is a fault, and what the finding says besides. */
static const struct {
    unsigned rule;
    int fault;
    const char *clause;
} class_texts[] = {
    {5, 0, "Y is the lower of the two"},
    {5, 1, "Y is the earlier of the two"},
};

/* A refusal, and why it is given. */
static const struct {
    unsigned number;
    const char *clause;
} refusal_texts[] = {
    {1, "the file ends before its header or a record is complete"},
    {2, "the mark is not SRJ"},
    {3, "the version is neither 1 nor 2"},
    {4, "a count is out of its range"},
    {5, "a field is out of its range"},
    {6, "a certificate repeats an earlier one, or a run's number is not above that of the run before"},
    {7, "the points last over 36,000 seconds, or points and segments do not last the same time"},
    {8, "bytes are left over behind the last run"},
    {9, "a lent output is too short"},
    {10, "the job has no run of that number"},
    {11, "the layout is outside its ranges"},
    {14, "the figure ends early, has a field out of range or order, or has bytes left over"},
    {15, "the run does not have that finding"},
};

#define ROWS(table) (sizeof(table) / sizeof(table)[0])

static int is_line(unsigned number)
{
    return number >= 1 && number <= line_count;
}

const char *leverbonnet_line_name(unsigned number)
{
    return is_line(number) ? line_texts[number - 1].name : "no such line";
}

const char *leverbonnet_line_unit(unsigned number)
{
    return is_line(number) ? line_texts[number - 1].unit : "";
}

unsigned leverbonnet_line_decimals(unsigned number)
{
    return is_line(number) ? line_texts[number - 1].decimals : 0;
}

/* The row of a rule, or that behind the last where there is none. */
static size_t rule_row(unsigned rule)
{
    size_t row = 0;
    while (row < ROWS(rule_texts) && rule_texts[row].rule != rule)
        row++;
    return row;
}

const char *leverbonnet_rule_clause(unsigned rule)
{
    size_t row = rule_row(rule);
    return row < ROWS(rule_texts) ? rule_texts[row].clause : "no rule has that number";
}

const char *leverbonnet_rule_place(unsigned rule)
{
    size_t row = rule_row(rule);
    return row < ROWS(rule_texts) ? rule_texts[row].place : "";
}

const char *leverbonnet_class_clause(unsigned rule, int fault)
{
    size_t k;
    for (k = 0; k < ROWS(class_texts); k++)
        if (class_texts[k].rule == rule && class_texts[k].fault == (fault != 0))
            return class_texts[k].clause;
    return "";
}

const char *leverbonnet_refusal_clause(unsigned number)
{
    size_t k;
    for (k = 0; k < ROWS(refusal_texts); k++)
        if (refusal_texts[k].number == number)
            return refusal_texts[k].clause;
    return "no refusal has that number";
}

/* The number in `width` bytes, the lowest first. */
static uint64_t number_of(const uint8_t *bytes, size_t width)
{
    uint64_t value = 0;
    while (width-- > 0)
        value = value << 8 | bytes[width];
    return value;
}

leverbonnet_line leverbonnet_line_of(const uint8_t *lines, unsigned number)
{
    leverbonnet_line line = {number, 0, 0};
    if (is_line(number)) {
        const uint8_t *bytes = lines + (number - 1) * LEVERBONNET_LINE_BYTES;
        line.present = bytes[0] == 1;
        line.value = (int64_t)number_of(bytes + 1, LEVERBONNET_LINE_BYTES - 1);
    }
    return line;
}

leverbonnet_finding leverbonnet_finding_of(const uint8_t *findings, size_t index)
{
    const uint8_t *bytes = findings + index * LEVERBONNET_FINDING_BYTES;
    leverbonnet_finding finding;
    finding.rule = bytes[0];
    finding.fault = bytes[1] != note_class;
    finding.place = (unsigned)number_of(bytes + 2, LEVERBONNET_FINDING_BYTES - 2);
    return finding;
}

unsigned leverbonnet_condition_count(const uint8_t *explanation)
{
    return explanation[0];
}

unsigned leverbonnet_day_count(const uint8_t *explanation)
{
    return explanation[1];
}

leverbonnet_condition leverbonnet_condition_of(const uint8_t *explanation, size_t index)
{
    const uint8_t *bytes = explanation + counts_length + index * LEVERBONNET_CONDITION_BYTES;
    leverbonnet_condition condition;
    condition.which = bytes[0];
    condition.way = bytes[1];
    condition.left = (int64_t)number_of(bytes + 2, 8);
    condition.right = (int64_t)number_of(bytes + 10, 8);
    condition.remainder = (int64_t)number_of(bytes + 18, 8);
    condition.remainder_limit = (int64_t)number_of(bytes + 26, 8);
    return condition;
}

leverbonnet_day leverbonnet_day_of(const uint8_t *explanation, size_t index)
{
    size_t conditions = leverbonnet_condition_count(explanation);
    const uint8_t *bytes = explanation + counts_length + conditions * LEVERBONNET_CONDITION_BYTES +
                           index * LEVERBONNET_DAY_BYTES;
    leverbonnet_day day;
    day.kind = bytes[0];
    day.side = bytes[1];
    day.found = bytes[2] == 1;
    day.day = (unsigned)number_of(bytes + 3, 2);
    return day;
}

/* Writes a value with its decimals: a sign, 20 digits, a point and a 0 fit. */
static void put_amount(int64_t value, unsigned decimals, char amount[24])
{
    uint64_t size = value < 0 ? 0 - (uint64_t)value : (uint64_t)value;
    const char *sign = value < 0 ? "-" : "";
    uint64_t unit = 1;
    unsigned k;
    for (k = 0; k < decimals; k++)
        unit *= 10;
    if (decimals == 0)
        snprintf(amount, 24, "%s%" PRIu64, sign, size);
    else
        snprintf(amount, 24, "%s%" PRIu64 ".%0*" PRIu64, sign, size / unit, (int)decimals, size % unit);
}

int leverbonnet_line_words(leverbonnet_line line, char *out, size_t out_len)
{
    const char *name = leverbonnet_line_name(line.number);
    const char *unit = leverbonnet_line_unit(line.number);
    char amount[24];
    if (!line.present)
        return snprintf(out, out_len, "%2u  %20s  absent", line.number, name);
    put_amount(line.value, leverbonnet_line_decimals(line.number), amount);
    return snprintf(out, out_len, "%2u  %20s  %s%s%s", line.number, name, amount, unit[0] ? " " : "", unit);
}

int leverbonnet_finding_words(leverbonnet_finding finding, char *out, size_t out_len)
{
    const char *class_name = finding.fault ? "Fault" : "Note";
    const char *clause = leverbonnet_rule_clause(finding.rule);
    const char *place = leverbonnet_rule_place(finding.rule);
    const char *besides = leverbonnet_class_clause(finding.rule, finding.fault);
    const char *joint = besides[0] ? ", and " : "";
    if (finding.place == 0)
        return snprintf(out, out_len, "%s %u: %s%s%s.", class_name, finding.rule, clause, joint, besides);
    return snprintf(out, out_len, "%s %u, %s %u: %s%s%s.", class_name, finding.rule, place[0] ? place : "place",
                    finding.place, clause, joint, besides);
}

int leverbonnet_refusal_words(uint64_t answer, char *out, size_t out_len)
{
    unsigned number = LEVERBONNET_REFUSAL(answer);
    unsigned place = LEVERBONNET_VALUE(answer);
    const char *clause = leverbonnet_refusal_clause(number);
    const char *file = number == refusal_of_figure ? " of the figure" : "";
    if (number > last_refusal_of_job && number != refusal_of_figure)
        return snprintf(out, out_len, "refusal %u: %s", number, clause);
    return snprintf(out, out_len, "refusal %u at byte %u%s: %s", number, place, file, clause);
}
