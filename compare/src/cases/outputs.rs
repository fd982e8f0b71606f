//! Outputs of every length about the need, for runs with no finding, with few
//! and with many, and for findings explained, without a figure and by one.

use std::iter;

use independent::job::{Job, Shape, Version, WeighingKind};
use independent::samples;
use leverbonnet::pipe::{Call, Files};

use crate::agreement::INDEPENDENT;
use crate::call::{Asked, Calls, Fill, Trial, BY_FIGURE, WITHOUT_FIGURE};
use crate::call::{FINDING_LENGTH, LINES_LENGTH, ROOMY_EXPLANATION_TEXT};
use crate::case::{Case, Expected};
use crate::versions::in_version;

const MOST_LINES: usize = LINES_LENGTH + 2;

/// How far an output for a text is from its need, either way.
const ABOUT_TEXT: usize = 40;

/// How far an output for an explanation goes past its need.
const PAST_EXPLANATION: usize = 5;

/// A run and the number of its findings, to be reduced into many outputs.
pub struct Outputs {
    pub case: Case,
    /// None for the calls that take none.
    pub figure: Option<Vec<u8>>,
    run: u16,
    findings: usize,
    /// Whether every length of one output meets every length of the other.
    crossed: bool,
    /// Rule and place of those to be explained into many outputs too.
    explained: &'static [(u16, u16)],
}

pub fn cases(version: Version) -> Vec<Outputs> {
    let outputs = |name: &str, sample, run, findings, crossed| Outputs {
        case: Case::of_job(name.into(), in_version(version, sample), Expected::Read),
        figure: None,
        run,
        findings,
        crossed,
        explained: &[],
    };
    let by_figure = |name: &str, sample, findings| Outputs {
        figure: Some(samples::made_up().bytes()),
        ..outputs(name, sample, 7, findings, false)
    };
    let several = samples::several_runs;
    vec![
        Outputs {
            explained: &[(11, 1)],
            ..outputs("a run with one finding", samples::worked(), 7, 1, true)
        },
        outputs("a run without findings", several(), 1, 0, true),
        Outputs {
            explained: &[(6, 0), (8, 0), (17, 2)],
            ..outputs("a run with seven findings", several(), 20, 7, true)
        },
        Outputs {
            explained: &[(1, 0), (8, 0), (9, 0), (20, 0)],
            ..outputs("a run with the most findings", fullest(), 7, 98, false)
        },
        Outputs {
            explained: &[(16, 0)],
            ..outputs(
                "a run past a limit of the percent isokinetic",
                samples::percent_limits(),
                4,
                1,
                false,
            )
        },
        Outputs {
            explained: &[(9, 0)],
            ..by_figure(
                "a run with one finding by a figure",
                samples::more_points(),
                1,
            )
        },
        Outputs {
            explained: &[(16, 0)],
            run: 4,
            ..by_figure(
                "a run past a limit of the percent isokinetic by a figure",
                samples::percent_limits(),
                1,
            )
        },
        by_figure(
            "a run without findings by a figure",
            samples::fewer_points(),
            0,
        ),
    ]
}

impl Outputs {
    /// The calls, each refused with 9 exactly if an output is too short.
    pub fn calls(&self) -> Vec<(Call, Expected)> {
        let mut calls = self.reduces();
        calls.extend(self.texts());
        let explained = self.explained.iter();
        calls.extend(explained.flat_map(|&(rule, place)| {
            self.explains(Asked {
                run: self.run,
                rule,
                place,
            })
        }));
        calls
    }

    fn made_by(&self) -> Calls {
        match self.figure {
            None => WITHOUT_FIGURE,
            Some(_) => BY_FIGURE,
        }
    }

    fn text(&self) -> Vec<u8> {
        let job = self.case.subject.bytes();
        match &self.figure {
            None => independent::sheet(&job),
            Some(figure) => independent::sheet_by_figure(figure, &job),
        }
    }

    fn reduces(&self) -> Vec<(Call, Expected)> {
        let needed = FINDING_LENGTH * self.findings;
        let mut calls = Vec::new();
        for lines_len in (0..=MOST_LINES).filter(|&length| self.crossed || is_telling(length)) {
            for findings_len in 0..=needed + FINDING_LENGTH + 1 {
                let call = (self.made_by().reduce)(self.run, lines_len, findings_len);
                let too_short = lines_len < LINES_LENGTH || findings_len < needed;
                calls.push((call, refused_if(too_short)));
            }
        }
        calls
    }

    fn texts(&self) -> impl Iterator<Item = (Call, Expected)> {
        let (calls, needed) = (self.made_by(), self.text().len());
        let about = needed - ABOUT_TEXT..=needed + ABOUT_TEXT;
        let lengths = iter::once(0).chain(about);
        lengths.map(move |out_len| ((calls.text)(out_len), refused_if(out_len < needed)))
    }

    /// The finding explained into every length from none on.
    fn explains(&self, asked: Asked) -> Vec<(Call, Expected)> {
        let Calls {
            explain,
            explain_text,
            ..
        } = self.made_by();
        let into_many = |call: fn(Asked, usize) -> Call| {
            let needed = self.needed(call(asked, ROOMY_EXPLANATION_TEXT));
            let lengths = 0..=needed + PAST_EXPLANATION;
            lengths.map(move |out_len| (call(asked, out_len), refused_if(out_len < needed)))
        };
        into_many(explain).chain(into_many(explain_text)).collect()
    }

    /// What a call writes of its run, if there is room for it.
    fn needed(&self, call: Call) -> usize {
        let job = &self.case.subject.bytes();
        let figure = self.figure.as_deref().unwrap_or(&[]);
        let fill = Fill::Pattern;
        let outcome = Trial { call, fill }.made(&INDEPENDENT, Files { figure, job });
        assert_eq!(outcome.refusal(), 0, "{call:?}");
        outcome.value() as usize
    }
}

fn refused_if(too_short: bool) -> Expected {
    match too_short {
        true => Expected::Refused(9),
        false => Expected::Read,
    }
}

fn is_telling(lines_len: usize) -> bool {
    lines_len == 0 || lines_len >= LINES_LENGTH - 1
}

/// No run can have more findings: no certificate (1 to 4), a stack too narrow,
/// disturbed and with a wrong number of points (7 to 9), all 64 points short
/// (10), all 16 segments leaking (11), nothing metered (12), all 8 weighings off
/// (17) and of one kind (19), and a catch below 0 (20).
pub fn fullest() -> Job {
    let mut job = samples::longest();
    job.certificates.clear();
    job.runs.truncate(1);
    let run = &mut job.runs[0];
    run.number = 7;
    run.shape = Shape::Rectangular;
    run.sides = [119, 119];
    run.to_next_disturbance = 0;
    run.from_last_disturbance = 0;
    run.last_reading = run.first_reading;
    for point in &mut run.points {
        point.seconds = 100;
    }
    for segment in &mut run.segments {
        segment.seconds = 400;
    }
    for weighing in &mut run.weighings {
        weighing.kind = WeighingKind::Filter;
        weighing.first_final = weighing.tare;
        weighing.second_final = weighing.tare - 6;
    }
    job
}
