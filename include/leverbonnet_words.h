/*
 * leverbonnet_words.h - what the proved library writes, taken apart and in words.
 *
 * For a program in C or C++; c/leverbonnet_words.c is compiled into it. The names
 * and sentences are those of the Rust package and of `leverbonnet sheet --words`. The
 * words of an explanation are the library's own, from leverbonnet_explain_text.
 *
 * Every function may be called from any thread, and from several at once.
 */

#ifndef LEVERBONNET_WORDS_H
#define LEVERBONNET_WORDS_H

#include "leverbonnet.h"

#ifdef __cplusplus
extern "C" {
#endif

/* A line of a reduced run: its number, 1 to 20, whether it is present, and its
 * value in the unit of docs/RULES.md, 0 if it is absent. */
typedef struct {
    unsigned number;
    int present;
    int64_t value;
} leverbonnet_line;

/* A finding: its rule, whether it is a fault or else a note, which for rule 5 goes
 * by the job's version, and its place, 0 for the whole run. */
typedef struct {
    unsigned rule;
    int fault;
    unsigned place;
} leverbonnet_finding;

/* A condition of a rule that is broken: which of the rule's it is, the way that left
 * stands to right (1 below, 2 above, 3 equal, 4 differs), both numbers, and of rules 15
 * and 16 the remainder with its limit, which are 0 of any other. */
typedef struct {
    unsigned which;
    unsigned way;
    int64_t left;
    int64_t right;
    int64_t remainder;
    int64_t remainder_limit;
} leverbonnet_condition;

/* A certificate day: the kind (1 meter, 2 pitot tube, 3 nozzle), the side (1 on the run's
 * day or earlier, 2 later), whether there is such a certificate, and its day, 0 if there
 * is none. */
typedef struct {
    unsigned kind;
    unsigned side;
    int found;
    unsigned day;
} leverbonnet_day;

/* The line of that number, 1 to 20, of the 180 bytes that leverbonnet_reduce or
 * leverbonnet_reduce_by_figure wrote. Any other number gives an absent line. */
leverbonnet_line leverbonnet_line_of(const uint8_t *lines, unsigned number);

/* The finding at that index, counted from 0 and below the number of findings that
 * the same call answered, of the bytes that it wrote. */
leverbonnet_finding leverbonnet_finding_of(const uint8_t *findings, size_t index);

/* How many conditions and how many certificate days the bytes have that
 * leverbonnet_explain or leverbonnet_explain_by_figure wrote, and the one at that index,
 * counted from 0 and below their number. */
unsigned leverbonnet_condition_count(const uint8_t *explanation);
unsigned leverbonnet_day_count(const uint8_t *explanation);
leverbonnet_condition leverbonnet_condition_of(const uint8_t *explanation, size_t index);
leverbonnet_day leverbonnet_day_of(const uint8_t *explanation, size_t index);

/* The name of a line, the unit that its value is shown in, and with how many
 * decimals. Of a number that no line has, "no such line", "" and 0. */
const char *leverbonnet_line_name(unsigned number);
const char *leverbonnet_line_unit(unsigned number);
unsigned leverbonnet_line_decimals(unsigned number);

/* What a rule finds, and what its places count: "point", "segment", "weighing", or
 * "" where it is about the whole run. Of a number that no rule has, "no rule has
 * that number" and "". */
const char *leverbonnet_rule_clause(unsigned rule);
const char *leverbonnet_rule_place(unsigned rule);

/* What a finding of that rule says besides if it is a fault, or else a note: of rule
 * 5 which factor Y is. Of any other rule "". */
const char *leverbonnet_class_clause(unsigned rule, int fault);

/* Why a call is refused. Of a number that no refusal has, "no refusal has that
 * number". */
const char *leverbonnet_refusal_clause(unsigned number);

/* Enough bytes for each of the texts below, with the 0 behind it. */
#define LEVERBONNET_WORDS_BYTES_MOST 128

/*
 * Each writes a text and a 0 behind it, cut off where out_len has no room for more,
 * and answers the length of the whole text, as snprintf does:
 *
 *     a line       18    Percent isokinetic  99.80 %
 *     a finding    Note 11, segment 1: the leak rate is above the allowance.
 *     a refusal    refusal 5 at byte 167: a field is out of its range
 *
 * The refusal is that of an answer whose LEVERBONNET_REFUSAL is not 0; of 14 it says
 * that the byte is one of the figure.
 */
int leverbonnet_line_words(leverbonnet_line line, char *out, size_t out_len);
int leverbonnet_finding_words(leverbonnet_finding finding, char *out, size_t out_len);
int leverbonnet_refusal_words(uint64_t answer, char *out, size_t out_len);

#ifdef __cplusplus
}
#endif

#endif
