//! Random jobs that are read: every value lies in its range, and every range
//! that depends on another value is kept too. A job is between calm (values of
//! the worked job, nearly) and wild (ends of ranges, anything between), so that
//! accepted runs, each finding and each absence come up.

mod certificates;
pub mod figures;
mod runs;

use std::cmp::Ordering;
use std::collections::BTreeSet;

use independent::job::{Job, Run, Version, NO_LETTER};
use independent::{work, Isokinetic};

use crate::random::Random;

const MOST_RUNS: usize = 16;
const MOST_METERED: i64 = 999_999;

/// Few, so that instruments meet that differ by the letter alone.
const LETTERS: [u8; 4] = [NO_LETTER, NO_LETTER, b'A', b'Z'];

/// How a job is made.
#[derive(Clone, Copy)]
struct Style {
    /// The chance in percent that a part of it is not calm.
    wildness: u64,
    /// Whether every count is at its greatest.
    full: bool,
    /// What its instruments have one of.
    letters: &'static [u8],
}

/// A job of a few runs, mostly, or of many.
pub fn job(random: &mut Random, version: Version) -> Job {
    let runs = random.pick(&[1, 1, 1, 1, 2, 2, 3, 4, MOST_RUNS]);
    job_of(random, version, runs, false)
}

/// A job of one to three runs.
pub fn short_job(random: &mut Random, version: Version) -> Job {
    let runs = random.pick(&[1, 1, 2, 3]);
    job_of(random, version, runs, false)
}

/// A job in which every count is at its greatest.
pub fn longest_job(random: &mut Random, version: Version) -> Job {
    job_of(random, version, MOST_RUNS, true)
}

fn job_of(random: &mut Random, version: Version, run_count: usize, full: bool) -> Job {
    let style = Style {
        wildness: random.pick(&[0, 2, 5, 10, 30, 100]),
        full,
        letters: letters(random, version),
    };
    let runs: Vec<Run> = numbers(random, run_count)
        .into_iter()
        .map(|number| runs::run(random, number, style))
        .collect();
    let certificates = certificates::certificates(random, &runs, style);
    let mut job = Job {
        version,
        certificates,
        runs,
    };
    if random.percent(15) {
        tune_isokinetic(random, &mut job);
    }
    job
}

/// None where the version has none, and now and then where it has them.
fn letters(random: &mut Random, version: Version) -> &'static [u8] {
    match version.has_letters() && random.percent(85) {
        true => &LETTERS,
        false => &[NO_LETTER],
    }
}

/// Rising run numbers, sometimes from 1 on, sometimes up to 999.
fn numbers(random: &mut Random, count: usize) -> Vec<u16> {
    let mut numbers = BTreeSet::new();
    while numbers.len() < count {
        numbers.insert(random.near_ends(1, 999) as u16);
    }
    numbers.into_iter().collect()
}

/// Meters one run so that its percent isokinetic, where it has one, comes next to
/// a limit: the first reading past it, or the one before that.
fn tune_isokinetic(random: &mut Random, job: &mut Job) {
    let past: fn(Isokinetic) -> bool = match random.percent(50) {
        true => |exact| exact.against(9_000) != Ordering::Less,
        false => |exact| exact.against(11_000) == Ordering::Greater,
    };
    let tuned = random.below(job.runs.len());
    let mut run = job.runs[tuned].clone();
    let first = run.first_reading;
    let (mut short, mut reached) = (0, MOST_METERED as u32);
    while short + 1 < reached {
        let middle = (short + reached) / 2;
        run.last_reading = first + middle;
        match work(None, job, &run).lines.isokinetic() {
            Some(exact) if past(exact) => reached = middle,
            _ => short = middle,
        }
    }
    job.runs[tuned].last_reading = first + random.pick(&[short, reached]);
}
