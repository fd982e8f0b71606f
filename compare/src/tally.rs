//! Counts what the compared jobs reached: verdicts, rules, absent lines for each
//! of their causes, edges of the rules, refusals. A comparison that reached too
//! little is no proof.

mod edges;
mod explained;
mod factors;
mod figures;
mod letters;

use std::fmt;

use independent::figure::Figure;
use independent::job::{Job, Run};
use independent::Class;

use crate::call::{Outcome, FINDING_LENGTH, LINES_LENGTH, LINE_COUNT, LINE_LENGTH};
use crate::versions::InTwin;
use edges::{Reduced, Refused, Times, EDGES};
use figures::{RefusedFigure, RunByFigure};

pub use explained::Explaining;

/// The rules that there are: none has the number 13.
const RULES: [usize; 19] = [
    1, 2, 3, 4, 5, 6, 7, 8, 9, 10, 11, 12, 14, 15, 16, 17, 18, 19, 20,
];
const LAST_RULE: usize = 20;

/// The greatest number of a refusal; 12 and 13 are given by none.
const LAST_REFUSAL: usize = 15;

/// The lines that can be absent, each with the rules that are found exactly
/// when one of its causes holds.
const ABSENCES: [(usize, &[u8]); 9] = [
    (6, &[1, 12]),
    (8, &[1, 12]),
    (10, &[1, 12]),
    (14, &[1, 12]),
    (15, &[1, 12, 2]),
    (16, &[3]),
    (17, &[1, 12]),
    (18, &[1, 12, 2, 3, 14]),
    (20, &[1, 12, 20]),
];

#[derive(Default)]
pub struct Tally {
    pub jobs: u64,
    pub calls: u64,
    /// Texts written, of jobs that are read and of findings explained.
    pub texts: u64,
    accepted: u64,
    void: u64,
    rules: [u64; LAST_RULE + 1],
    /// By line, then by the rule that was its only cause.
    absences: [[u64; LAST_RULE + 1]; LINE_COUNT + 1],
    edges: Edges,
    explained: explained::Counts,
    refusals: [u64; LAST_REFUSAL + 1],
}

/// How often each edge was reached. An array of so many has no default.
struct Edges([u64; EDGES.len()]);

impl Default for Edges {
    fn default() -> Self {
        Edges([0; EDGES.len()])
    }
}

impl Tally {
    pub fn count(&mut self, outcome: &Outcome) {
        self.calls += 1;
        self.refusals[outcome.refusal() as usize] += 1;
    }

    pub fn count_text(&mut self, outcome: &Outcome) {
        self.count(outcome);
        self.texts += u64::from(outcome.refusal() == 0);
    }

    /// Counts the edges that a refused job comes to, and not its refusal once more.
    pub fn count_refused(&mut self, job: &[u8], outcome: &Outcome) {
        let refused = Refused {
            job,
            number: outcome.refusal(),
            place: outcome.value() as usize,
        };
        self.count_edges(|times| match times {
            Times::Refusal(times) => times(&refused),
            _ => 0,
        });
    }

    /// The same for a figure.
    pub fn count_refused_figure(&mut self, figure: &[u8], place: u32, job_refused: bool) {
        let refused = RefusedFigure {
            figure,
            place: place as usize,
            job_refused,
        };
        self.count_edges(|times| match times {
            Times::RefusedFigure(whether) => usize::from(whether(&refused)),
            _ => 0,
        });
    }

    fn count_edges(&mut self, reached: impl Fn(&Times) -> usize) {
        for (edge, count) in EDGES.iter().zip(&mut self.edges.0) {
            *count += reached(&edge.times) as u64;
        }
    }

    /// Counts a successful reduce's verdict, findings, absent lines and edges too.
    pub fn count_reduced(&mut self, job: &Job, run: &Run, in_twin: InTwin, outcome: &Outcome) {
        self.count(outcome);
        if outcome.refusal() != 0 {
            return;
        }
        let reduced = Reduced {
            job,
            run,
            in_twin,
            accepted: outcome.accepted(),
            lines: lines(outcome),
            findings: findings(outcome),
            faults: faults(outcome),
        };
        self.count_verdict(outcome);
        for (number, causes) in ABSENCES {
            let mut held = causes.iter().filter(|&&cause| reduced.breaks(cause));
            if let (None, Some(&only), None) = (reduced.line(number), held.next(), held.next()) {
                self.absences[number][usize::from(only)] += 1;
            }
        }
        self.count_edges(|times| match times {
            Times::Run(times) => times(&reduced),
            _ => 0,
        });
    }

    fn count_verdict(&mut self, outcome: &Outcome) {
        self.accepted += u64::from(outcome.accepted());
        self.void += u64::from(!outcome.accepted());
        for (rule, _) in findings(outcome) {
            self.rules[usize::from(rule)] += 1;
        }
    }

    /// Counts the verdict, findings and edges of a successful reduce by a figure.
    pub fn count_reduced_by_figure(&mut self, figure: &Figure, run: &Run, outcome: &Outcome) {
        self.count(outcome);
        if outcome.refusal() != 0 {
            return;
        }
        self.count_verdict(outcome);
        let by_figure = RunByFigure {
            figure,
            run,
            breaks_rule_9: findings(outcome).iter().any(|&(rule, _)| rule == 9),
        };
        self.count_edges(|times| match times {
            Times::RunByFigure(whether) => usize::from(whether(&by_figure)),
            _ => 0,
        });
    }

    pub fn add(&mut self, other: &Tally) {
        self.jobs += other.jobs;
        self.calls += other.calls;
        self.texts += other.texts;
        self.accepted += other.accepted;
        self.void += other.void;
        add_each(&mut self.rules, &other.rules);
        for (mine, others) in self.absences.iter_mut().zip(&other.absences) {
            add_each(mine, others);
        }
        add_each(&mut self.edges.0, &other.edges.0);
        self.explained.add(&other.explained);
        add_each(&mut self.refusals, &other.refusals);
    }

    /// What jobs that are read must reach and these did not, in words.
    pub fn unreached_by_reading(&self) -> Vec<String> {
        let mut unreached = Vec::new();
        let mut need = |count: u64, what: String| {
            if count == 0 {
                unreached.push(what);
            }
        };
        need(self.accepted, "an accepted run".into());
        need(self.void, "a void run".into());
        need(self.texts, "a text".into());
        for rule in RULES {
            need(self.rules[rule], format!("rule {rule}"));
        }
        for (line, causes) in ABSENCES {
            for &cause in causes {
                let count = self.absences[line][usize::from(cause)];
                need(count, format!("line {line} absent only by rule {cause}"));
            }
        }
        for (edge, count) in self.edges_of_runs() {
            need(count, edge.into());
        }
        unreached
    }

    /// What jobs that are refused must reach and these did not, in words.
    pub fn unreached_by_refusing(&self) -> Vec<String> {
        let edges = self.edges_of_refusals().filter(|&(_, count)| count == 0);
        let edges = edges.map(|(edge, _)| edge.into());
        // 11 is for layouts.
        let mut unreached = self.unreached_refusals(1..=10);
        unreached.extend(edges);
        unreached
    }

    /// What jobs worked by figures must reach and these did not, in words.
    pub fn unreached_by_figures(&self) -> Vec<String> {
        let edges = self.edges_of_figures().filter(|&(_, count)| count == 0);
        let edges = edges.map(|(edge, _)| edge.into());
        let mut unreached = self.unreached_refusals([9, 10, 14].into_iter());
        unreached.extend(edges);
        unreached
    }

    fn edges_of_runs(&self) -> impl Iterator<Item = (&'static str, u64)> + '_ {
        self.edges(|times| matches!(times, Times::Run(_)))
    }

    fn edges_of_refusals(&self) -> impl Iterator<Item = (&'static str, u64)> + '_ {
        self.edges(|times| matches!(times, Times::Refusal(_)))
    }

    fn edges_of_figures(&self) -> impl Iterator<Item = (&'static str, u64)> + '_ {
        self.edges(|times| matches!(times, Times::RunByFigure(_) | Times::RefusedFigure(_)))
    }

    /// The edges that such come to, with how often they did.
    fn edges(&self, such: fn(&Times) -> bool) -> impl Iterator<Item = (&'static str, u64)> + '_ {
        let edges = EDGES.iter().zip(&self.edges.0);
        edges
            .filter(move |(edge, _)| such(&edge.times))
            .map(|(edge, &count)| (edge.name, count))
    }

    /// The refusals of these numbers that were never given, in words.
    pub fn unreached_refusals(&self, numbers: impl Iterator<Item = usize>) -> Vec<String> {
        numbers
            .filter(|&number| self.refusals[number] == 0)
            .map(|number| format!("refusal {number}"))
            .collect()
    }

    /// What was reached by jobs that are refused, beside their numbers.
    pub fn refused_text(&self) -> String {
        edges_text(self.edges_of_refusals())
    }

    /// What was reached by jobs that were worked by figures.
    pub fn figures_text(&self) -> String {
        [self.verdicts_text(), edges_text(self.edges_of_figures())].join("\n")
    }

    fn verdicts_text(&self) -> String {
        format!("  accepted {}, void {}", self.accepted, self.void)
    }

    pub fn refusals_text(&self) -> String {
        let refusals = (1..=LAST_REFUSAL).filter(|&number| self.refusals[number] > 0);
        let counted: Vec<String> = refusals
            .map(|number| format!("{number}: {}", self.refusals[number]))
            .collect();
        match counted.is_empty() {
            true => "none".into(),
            false => counted.join(", "),
        }
    }
}

/// A line for each, and how often it was reached.
fn edges_text(edges: impl Iterator<Item = (&'static str, u64)>) -> String {
    let lines: Vec<String> = edges
        .map(|(edge, count)| format!("  {edge}: {count}"))
        .collect();
    lines.join("\n")
}

fn add_each(mine: &mut [u64], others: &[u64]) {
    for (count, other) in mine.iter_mut().zip(others) {
        *count += other;
    }
}

fn lines(outcome: &Outcome) -> Vec<Option<i64>> {
    let lines = outcome.output(0)[..LINES_LENGTH].chunks(LINE_LENGTH);
    lines.map(line).collect()
}

fn line(bytes: &[u8]) -> Option<i64> {
    let value = i64::from_le_bytes(std::array::from_fn(|i| bytes[1 + i]));
    (bytes[0] == 1).then_some(value)
}

/// Rule and place of each.
fn findings(outcome: &Outcome) -> Vec<(u8, u16)> {
    written_findings(outcome)
        .map(|bytes| (bytes[0], u16::from_le_bytes([bytes[2], bytes[3]])))
        .collect()
}

/// The rule of each that is a fault.
fn faults(outcome: &Outcome) -> Vec<u8> {
    written_findings(outcome)
        .filter(|bytes| bytes[1] == Class::Fault as u8)
        .map(|bytes| bytes[0])
        .collect()
}

fn written_findings(outcome: &Outcome) -> impl Iterator<Item = &[u8]> {
    let findings = outcome.output(1).chunks(FINDING_LENGTH);
    findings.take(outcome.findings())
}

/// What was reached by jobs that are read.
impl fmt::Display for Tally {
    fn fmt(&self, f: &mut fmt::Formatter) -> fmt::Result {
        writeln!(f, "{}", self.verdicts_text())?;
        let rules: Vec<String> = RULES
            .iter()
            .map(|&rule| format!("{rule}: {}", self.rules[rule]))
            .collect();
        writeln!(f, "  findings by rule: {}", rules.join(", "))?;
        writeln!(
            f,
            "  absent lines by their only cause (the rule found with it):"
        )?;
        for (line, causes) in ABSENCES {
            let counted: Vec<String> = causes
                .iter()
                .map(|&cause| format!("rule {cause}: {}", self.absences[line][usize::from(cause)]))
                .collect();
            writeln!(f, "    line {line}: {}", counted.join(", "))?;
        }
        write!(f, "{}", edges_text(self.edges_of_runs()))
    }
}

#[cfg(test)]
impl Tally {
    /// The edges that were reached, with how often.
    fn reached(&self) -> Vec<(&'static str, u64)> {
        let edges = self.edges(|_| true);
        edges.filter(|&(_, count)| count > 0).collect()
    }
}

#[cfg(test)]
mod tests {
    use independent::job::{Job, Version, NO_LETTER};
    use independent::samples;
    use leverbonnet::pipe::Call;

    use super::*;
    use crate::agreement::INDEPENDENT;
    use crate::call::{only, Fill, Trial};
    use crate::versions::{in_twin, moved_factor};

    #[test]
    fn a_comparison_without_a_text_has_not_reached_one() {
        let unreached = Tally::default().unreached_by_reading();
        assert!(unreached.contains(&"a text".into()));
        let tally = Tally {
            texts: 1,
            ..Tally::default()
        };
        assert!(!tally.unreached_by_reading().contains(&"a text".into()));
    }

    /// What the runs of a job come to.
    fn counted(job: &Job) -> Tally {
        let mut tally = Tally::default();
        for run in &job.runs {
            let call = Call::Reduce {
                run: run.number,
                lines_len: LINES_LENGTH,
                findings_len: 3 * FINDING_LENGTH,
            };
            let fill = Fill::Pattern;
            let outcome = Trial { call, fill }.made(&INDEPENDENT, only(&job.bytes()));
            tally.count_reduced(job, run, in_twin(job, run), &outcome);
        }
        tally
    }

    /// Four runs, of which two are past a limit and are written as if they were not.
    #[test]
    fn a_percent_past_its_limit_is_told_from_one_that_is_written_alike() {
        let tally = counted(&samples::percent_limits());
        assert_eq!(
            tally.reached(),
            [
                ("line 18 at 9000 and rule 15 broken", 1),
                ("line 18 at 9000 and rule 15 kept", 1),
                ("line 18 at 11000 and rule 16 kept", 1),
                ("line 18 at 11000 and rule 16 broken", 1),
                ("a run of version 1", 4),
                ("a run of version 1 that is the same in version 2", 4),
            ]
        );
        let unreached = tally.unreached_by_reading();
        assert!(unreached.contains(&"line 18 at 8999 and rule 15 broken".into()));
        assert!(!unreached.contains(&"line 18 at 9000 and rule 15 broken".into()));
    }

    /// Six runs, of which two stand by 1 percent of the net alone.
    #[test]
    fn weighings_are_told_apart_by_difference_and_net() {
        assert_eq!(
            counted(&samples::weighing_limits()).reached(),
            [
                ("weighed 5 apart: kept", 1),
                ("weighed over 5 apart, up to 1 percent of the net: kept", 2),
                ("weighed over 5 apart, just 1 percent of the net: kept", 2),
                (
                    "weighed over 5 apart, by less than a unit over 1 percent of the net: broken",
                    1
                ),
                ("weighed 6 apart, the net negative: broken", 1),
                ("accepted with a weighing over 5 apart", 2),
                ("a run of version 1", 6),
                ("a run of version 1 that is the same in version 2", 6),
            ]
        );
    }

    /// Three runs: before the meter was rebuilt, before its next certificate, after that.
    #[test]
    fn a_missing_certificate_is_told_from_one_with_another_letter() {
        let job = samples::rebuilt_meter();
        assert_eq!(
            counted(&job).reached(),
            [
                (
                    "rule 1 broken, though a certificate with another letter stands",
                    1
                ),
                ("a run of version 2", 3),
            ]
        );
    }

    /// The last run with the letter of before, and a certificate of either letter on the
    /// day before it.
    #[test]
    fn certificates_are_told_apart_by_their_letters() {
        let mut job = samples::rebuilt_meter();
        job.runs.drain(..2);
        job.runs[0].meter.letter = NO_LETTER;
        let mut expected = vec![
            (
                "a nearer certificate passed over for its letter alone: the meter's before",
                1,
            ),
            (
                "rule 4 broken, though a certificate with another letter stands",
                1,
            ),
            ("a run of version 2", 1),
        ];
        assert_eq!(counted(&job).reached(), expected);

        job.certificates[1].day = 9_011;
        job.certificates[2].day = 9_011;
        expected[0] = expected[1];
        expected[1] = (
            "two certificates that differ by the letter alone, one of them chosen",
            1,
        );
        assert_eq!(counted(&job).reached(), expected);
    }

    /// Three runs: not moved, moved up, moved down.
    #[test]
    fn moved_factors_are_told_apart_by_version_and_verdict() {
        let limits = [
            ("a factor up by just 5 percent: not moved", 1),
            ("a factor up by the least over 5 percent: moved", 1),
            ("a factor down by the least over 5 percent: moved", 1),
        ];
        let in_version_1 = [
            ("a factor moved up in version 1: accepted", 1),
            ("a factor moved down in version 1: accepted", 1),
            (
                "a factor moved down in version 1: Y the after factor, lines unlike those of version 2",
                1,
            ),
            ("a run of version 1", 3),
            ("a run of version 1 that is the same in version 2", 1),
            (
                "a run of version 1 left out of the check against its twin, because its factor moved",
                2,
            ),
        ];
        let in_version_2 = [
            ("a factor moved up in version 2: void by it alone", 1),
            ("a factor moved down in version 2: void by it alone", 1),
            (
                "a factor moved down in version 2: Y the before factor, lines unlike those of version 1",
                1,
            ),
            ("a run of version 2", 3),
            ("a run of version 2 that is the same in version 1", 1),
            (
                "a run of version 2 left out of the check against its twin, because its factor moved",
                2,
            ),
        ];
        for (version, edges) in [
            (Version::One, &in_version_1[..]),
            (Version::Two, &in_version_2[..]),
        ] {
            let tally = counted(&moved_factor(version));
            assert_eq!(tally.reached(), [&limits[..], edges].concat());
        }
    }

    /// The same, with a point that was too short in each.
    #[test]
    fn moved_factors_are_told_from_other_faults() {
        let void = |version| {
            let mut job = moved_factor(version);
            for run in &mut job.runs {
                run.points[0].seconds = 119;
                run.points[1].seconds += 450 - 119;
            }
            let mut edges = counted(&job).reached();
            edges.retain(|(edge, _)| edge.contains(": void"));
            edges
        };
        assert_eq!(
            Version::ALL.map(void),
            [
                [
                    ("a factor moved up in version 1: void", 1),
                    ("a factor moved down in version 1: void", 1),
                ],
                [
                    (
                        "a factor moved up in version 2: void by it and another fault",
                        1
                    ),
                    (
                        "a factor moved down in version 2: void by it and another fault",
                        1
                    ),
                ],
            ]
        );
    }

    #[test]
    fn a_bad_letter_is_told_from_other_bad_fields() {
        let refused_at = |place: usize, value: u8| {
            let mut job = samples::rebuilt_meter().bytes();
            job[place] = value;
            let (call, fill) = (Call::RunCount, Fill::Pattern);
            let outcome = Trial { call, fill }.made(&INDEPENDENT, only(&job));
            assert_eq!(outcome.answer, 5 << 32 | place as u64);
            let mut tally = Tally::default();
            tally.count_refused(&job, &outcome);
            tally.refused_text()
        };
        let (certificate, run) = (9, 9 + 6 * 17);
        for letter in [certificate + 8, run + 11, run + 19, run + 27] {
            assert_eq!(refused_at(letter, b'a'), "  a bad letter refused: 1");
        }
        for (other, value) in [(certificate, 0), (certificate + 1, 0), (run + 66, 1)] {
            assert_eq!(refused_at(other, value), "  a bad letter refused: 0");
        }
        let unreached = Tally::default().unreached_by_refusing();
        assert!(unreached.contains(&"a bad letter refused".into()));
    }
}
