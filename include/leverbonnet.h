/*
 * leverbonnet.h - the twelve calls of the proved library.
 *
 * What they read and write is described byte by byte in docs/RULES.md. What they
 * write can be taken apart and said in words with leverbonnet_words.h.
 *
 * A job is of version 1 or of version 2, and every call reads both. Version 2 has
 * a letter behind each serial, for meters that were rebuilt: kind, maker, serial
 * and letter together say whose a certificate is. In version 1 every letter is
 * none. Rule 5, that the meter's factor moved by more than 5 percent, is a note in
 * version 1, with the lower of the two factors as Y, and a fault in version 2, with
 * the earlier one. Nothing else of a run goes by the version.
 *
 * A figure is a file of its own, an agency's reading of figure 1-1 as steps: how many
 * points it asks for at which distances from the last disturbance and to the next.
 * The four calls by a figure take its number of points in place of the house rule's 24
 * and 25 of rule 9; the 12, 8 and 9 points that suffice far from disturbances stay,
 * and so does all else. The other calls know no figure.
 *
 * Every call answers one uint64_t:
 *
 *     high 32 bits   0 for success, else the number of the refusal
 *     low 32 bits    what the call gives on success, else the refusal's place,
 *                    a byte of the job counted from 0, or for 14 of the figure
 *
 * A buffer is lent as a pointer and its length in bytes, and no pointer is
 * kept. Lent outputs must not overlap each other, the job or the figure. A length
 * may be 0; the pointer is then not followed, and may be NULL. On success only the
 * bytes described below are written and every lent byte beyond them stays as
 * it was. On a refusal no lent byte changes at all.
 *
 * The library has no state of its own: every call may be made from any thread,
 * and from several at once, as long as no two write to the same output.
 *
 * Refusals:
 *
 *      1  the job ends before its header or a record
 *         is complete                                    place: job_len
 *      2  the mark is not SRJ                            place: 0
 *      3  the version is neither 1 nor 2                 place: 3
 *      4  a count is out of range                        place: that count
 *      5  another field is out of range                  place: its first byte
 *      6  a certificate repeats kind, maker, serial,
 *         letter and day of an earlier one, or a run's
 *         number is not above that of the run before     place: the record
 *      7  the points last over 36,000 seconds, or points
 *         and segments do not last the same time         place: the run
 *      8  bytes are left over behind the last run        place: first of them
 *      9  a lent output is too short                     place: 0
 *     10  the job has no such run                        place: 0
 *     11  a layout is outside its ranges                 place: 0
 *     14  the figure ends before a field is complete,    place: figure_len
 *         has a field that is out of its range, a
 *         distance that does not rise or points that do, place: its first byte
 *         or has bytes left over                         place: first of them
 *     15  the run does not have that finding             place: 0
 *
 * A job is judged from its front and the first trouble met is the answer; 10,
 * then 15 and then 9 come only once the whole job was found good. A figure is judged so
 * too, field by field, before the job is read: 14 comes before every other number.
 * A layout answers 11 before 9. All outputs are little-endian.
 */

#ifndef LEVERBONNET_H
#define LEVERBONNET_H

#include <stddef.h>
#include <stdint.h>

#ifdef __cplusplus
extern "C" {
#endif

#define LEVERBONNET_REFUSAL(answer) ((uint32_t)((answer) >> 32))
#define LEVERBONNET_VALUE(answer) ((uint32_t)(answer))

/* Bytes of one line, of a reduced run's twenty lines, of one finding, and of a
 * condition and a certificate day that explain one. */
#define LEVERBONNET_LINE_BYTES 9
#define LEVERBONNET_LINES_BYTES (20 * LEVERBONNET_LINE_BYTES)
#define LEVERBONNET_FINDING_BYTES 4
#define LEVERBONNET_CONDITION_BYTES 34
#define LEVERBONNET_DAY_BYTES 5

/* Enough bytes for the findings of any run: it is proved that none has more than
 * 98. */
#define LEVERBONNET_FINDINGS_BYTES_MOST (98 * LEVERBONNET_FINDING_BYTES)

/* Enough bytes for the text of any job: it is proved that none has more. */
#define LEVERBONNET_TEXT_BYTES_MOST 27088

/* Enough bytes for the explanation of any finding, and enough for its text: it is
 * proved that none has more. */
#define LEVERBONNET_EXPLANATION_BYTES_MOST 70
#define LEVERBONNET_EXPLANATION_TEXT_BYTES_MOST 1024

/* The longest job, which is of version 2. Of a longer file nothing past the next
 * byte changes an answer. */
#define LEVERBONNET_JOB_BYTES_MOST 17273

/* The longest figure. Of a longer file nothing past the next byte changes an
 * answer. */
#define LEVERBONNET_FIGURE_BYTES_MOST 135

/* Added to the number of findings when the run is accepted. */
#define LEVERBONNET_ACCEPTED 65536

/*
 * Works the run of that number.
 *
 * lines: 20 lines of 9 bytes, line 1 first: one byte, 1 if the line is present
 * and 0 if it is absent, then its value as a signed 64-bit number (0 if absent).
 *
 * findings: 4 bytes each, by rule and then place: the rule (1 to 20; no rule has
 * the number 13), the class (1 fault, 2 note; notes are those of rule 11, and in a
 * job of version 1 those of rule 5), the place as 16 bits: a point, segment or
 * weighing counted from 1, or 0 for the whole run.
 *
 * Succeeds with the number of findings, plus LEVERBONNET_ACCEPTED if none is a
 * fault. Answers 9 if lines_len is below 180 or findings_len below 4 bytes for
 * each finding; a run without findings needs none.
 */
uint64_t leverbonnet_reduce(const uint8_t *job, size_t job_len, uint16_t run,
                            uint8_t *lines, size_t lines_len,
                            uint8_t *findings, size_t findings_len);

/*
 * The same, with the figure in place of the house rule's 24 and 25 points: the lines
 * are those of leverbonnet_reduce, and of the findings only that of rule 9 goes by the
 * figure. Answers 14 for a figure that is not in order, whatever the job and the
 * outputs are; else what leverbonnet_reduce answers, 1 to 8, 10 and 9.
 */
uint64_t leverbonnet_reduce_by_figure(const uint8_t *figure, size_t figure_len,
                                      const uint8_t *job, size_t job_len,
                                      uint16_t run, uint8_t *lines,
                                      size_t lines_len, uint8_t *findings,
                                      size_t findings_len);

/* Succeeds with the number of runs, 1 to 16. */
uint64_t leverbonnet_run_count(const uint8_t *job, size_t job_len);

/*
 * Succeeds with the number, 1 to 999, of the run at that index in file order,
 * counted from 0. Answers 10 past the last run.
 */
uint64_t leverbonnet_run_number(const uint8_t *job, size_t job_len,
                                uint16_t index);

/*
 * Writes the characters that the program `sheet` prints for a job that is read:
 * each run in file order, its number and whether it stands, its twenty lines,
 * its findings.
 *
 * Succeeds with the number of characters. Answers 9 if the output is shorter
 * than the text.
 */
uint64_t leverbonnet_sheet_text(const uint8_t *job, size_t job_len,
                                uint8_t *out, size_t out_len);

/*
 * The same, each run as leverbonnet_reduce_by_figure works it. Answers 14 for a
 * figure that is not in order, whatever the job and the output are; else 1 to 8 and
 * then 9. LEVERBONNET_TEXT_BYTES_MOST bytes suffice for it too.
 */
uint64_t leverbonnet_sheet_text_by_figure(const uint8_t *figure,
                                          size_t figure_len, const uint8_t *job,
                                          size_t job_len, uint8_t *out,
                                          size_t out_len);

/*
 * Explains the finding of that rule at that place, as leverbonnet_reduce writes both,
 * of the run of that number: every condition of the rule that is broken, with the
 * numbers that the rule compares, and the days of the certificates that were used.
 *
 * out: one byte, the number of conditions, 0 to 2; one byte, the number of certificate
 * days, 0 to 4; then the conditions, 34 bytes each, and then the days, 5 bytes each.
 *
 * A condition: which of the rule's it is (1, or 2 for the second of rules 8 and 9), the
 * way (1 below, 2 above, 3 equal, 4 differs), and four signed 64-bit numbers: left,
 * right, remainder and the remainder's limit. It is broken because left stands to right
 * in that way. Rules 15 and 16 compare a quotient: where left and right are equal the
 * remainder stands to its limit, which is 0, in that way. Of any other rule both are 0.
 * A finding of rules 1 to 4 has no condition; the days tell it.
 *
 * A certificate day: the kind (1 meter, 2 pitot tube, 3 nozzle), the side (1 on the
 * run's day or earlier, 2 later), 1 if there is such a certificate and 0 if there is
 * none, and its day as 16 bits (0 if there is none): the nearest to the run's day of
 * those with the kind, maker, serial and letter that the run names. Meter, pitot tube
 * and nozzle stand in this order, and of each side 1 before side 2. docs/RULES.md says
 * which of them a rule has.
 *
 * Succeeds with the number of bytes written. Answers 15 if the run does not have that
 * finding, then 9 if the output is shorter than its explanation.
 */
uint64_t leverbonnet_explain(const uint8_t *job, size_t job_len, uint16_t run,
                             uint16_t rule, uint16_t place, uint8_t *out,
                             size_t out_len);

/*
 * The same of a finding that leverbonnet_reduce_by_figure writes: of rule 9 the least
 * number of points is the figure's, where it counts. Answers 14 for a figure that is not
 * in order, whatever all else is; else 1 to 8, 10, 15 and 9.
 */
uint64_t leverbonnet_explain_by_figure(const uint8_t *figure, size_t figure_len,
                                       const uint8_t *job, size_t job_len,
                                       uint16_t run, uint16_t rule,
                                       uint16_t place, uint8_t *out,
                                       size_t out_len);

/*
 * The same as leverbonnet_explain, as characters: the finding's line as `sheet` prints
 * it, and under it, two spaces in, a line for each condition and for each certificate
 * day.
 *
 * Succeeds with the number of characters. Answers 15 if the run does not have that
 * finding, then 9 if the output is shorter than the text.
 */
uint64_t leverbonnet_explain_text(const uint8_t *job, size_t job_len,
                                  uint16_t run, uint16_t rule, uint16_t place,
                                  uint8_t *out, size_t out_len);

/*
 * The same of a finding that leverbonnet_reduce_by_figure writes. Answers 14 for a
 * figure that is not in order, whatever all else is; else 1 to 8, 10, 15 and 9.
 */
uint64_t leverbonnet_explain_text_by_figure(const uint8_t *figure,
                                            size_t figure_len,
                                            const uint8_t *job, size_t job_len,
                                            uint16_t run, uint16_t rule,
                                            uint16_t place, uint8_t *out,
                                            size_t out_len);

/*
 * Lays out the points on one diameter of a round stack: points even, 2 to 24;
 * diameter in 0.1 in, 120 to 9,999; nozzle in 0.001 in, 100 to 1,000.
 *
 * out: one uint32_t per point, its distance from the near wall in 0.001 in,
 * rising. Succeeds with the number of bytes written, 4 per point.
 */
uint64_t leverbonnet_round_layout(uint16_t points, uint16_t diameter,
                                  uint16_t nozzle, uint8_t *out,
                                  size_t out_len);

/*
 * Lays out the cells of a rectangular stack: points 9, 12, 16, 20, 25, 30, 36,
 * 42 or 49; sides in 0.1 in, 1 to 9,999, with a diameter 2LW/(L+W) of 120 or
 * more. The longer side has the more cells, the first if they are equal.
 *
 * out: two uint32_t per cell, its center's distance along the first and along
 * the second side in 0.001 in; cells follow one another along the first side.
 * Succeeds with the number of bytes written, 8 per cell.
 */
uint64_t leverbonnet_rect_layout(uint16_t points, uint16_t first,
                                 uint16_t second, uint8_t *out,
                                 size_t out_len);

#ifdef __cplusplus
}
#endif

#endif
