//! Disturbances on either side of every step, and every number of points that a figure
//! can ask for.

use independent::figure::{Figure, Step, MOST_RECTANGULAR, MOST_ROUND, MOST_STEPS};
use independent::job::{Job, Run, Version};
use independent::{is_allowed, least_points, samples};
use independent::{UNDISTURBED_FROM_LAST, UNDISTURBED_TO_NEXT};

use super::both_read;
use crate::case::ByFigure;
use crate::site::{give_points, least_reaching, shape};
use crate::versions::in_version;

const RUNS_A_JOB: usize = 16;

/// Sides of a round stack and of a rectangular one of 24 in, and of two whose hundredths
/// of a diameter are no whole tenths of an inch.
const STACKS: [[u16; 2]; 4] = [[240, 0], [200, 300], [50, 117], [101, 0]];

/// Figures with as few steps as there may be and with as many, and stacks whose
/// disturbances just reach each step or are 0.1 in nearer. One in so many stacks, not the
/// same ones in both versions.
pub fn about_each(version: Version, one_stack_in: usize) -> impl Iterator<Item = ByFigure> {
    let stacks = STACKS.iter().skip((version as usize - 1) % one_stack_in);
    stacks.step_by(one_stack_in).flat_map(move |&sides| {
        [1, MOST_STEPS].into_iter().flat_map(move |steps| {
            let name = format!("stack {sides:?} about each of {steps} steps");
            let figure = stairs(steps);
            by_jobs(version, &name, &figure, &about_steps(&figure, sides))
        })
    })
}

pub fn longest_figure() -> Figure {
    stairs(MOST_STEPS)
}

/// So many steps in each list. A disturbance that is hardly too near for an undisturbed
/// site is past all of its own.
fn stairs(steps: u8) -> Figure {
    let list = |least_distance: fn(u16) -> u16| -> Vec<Step> {
        (0..steps)
            .map(|k| Step {
                least_distance: least_distance(u16::from(k)),
                round: MOST_ROUND - 3 * k,
                rectangular: MOST_RECTANGULAR - 3 * k,
            })
            .collect()
    };
    Figure {
        from_last: list(|k| 35 + 45 * k),
        to_next: list(|k| 15 + 10 * k),
    }
}

/// For each step a run that reaches it and one that does not, with as many points as
/// suffice where it is reached.
fn about_steps(figure: &Figure, sides: [u16; 2]) -> Vec<Run> {
    let disturbed = stack(sides);
    let about = |step: &Step| {
        let reaching = least_reaching(&disturbed, step.least_distance) as u16;
        [reaching, reaching - 1]
    };
    let by_last = figure.from_last.iter().map(|step| {
        about(step).map(|from_last_disturbance| Run {
            from_last_disturbance,
            ..disturbed.clone()
        })
    });
    let by_next = figure.to_next.iter().map(|step| {
        about(step).map(|to_next_disturbance| Run {
            to_next_disturbance,
            ..disturbed.clone()
        })
    });
    let pairs = by_last.chain(by_next);
    pairs
        .flat_map(|pair| {
            let points = least_points(&pair[0], Some(figure));
            pair.map(|run| with_points(&run, points))
        })
        .collect()
}

fn with_points(run: &Run, points: u16) -> Run {
    let mut run = run.clone();
    give_points(&mut run, points);
    run
}

/// The worked job's run in such a stack, whose disturbances are 0.1 in too near for an
/// undisturbed site.
fn stack(sides: [u16; 2]) -> Run {
    let mut run = samples::worked().runs.remove(0);
    run.shape = shape(sides);
    run.sides = sides;
    run.from_last_disturbance = least_reaching(&run, UNDISTURBED_FROM_LAST) as u16 - 1;
    run.to_next_disturbance = least_reaching(&run, UNDISTURBED_TO_NEXT) as u16 - 1;
    run
}

/// The worked job with these runs, as many as a job holds at a time, by the figure.
fn by_jobs(version: Version, name: &str, figure: &Figure, runs: &[Run]) -> Vec<ByFigure> {
    let jobs = runs.chunks(RUNS_A_JOB).map(|runs| {
        let numbered = runs.iter().cloned().zip(1..);
        let runs = numbered.map(|(run, number)| Run { number, ..run });
        Job {
            runs: runs.collect(),
            ..samples::worked()
        }
    });
    jobs.map(|job| both_read(name.into(), figure, in_version(version, job)))
        .collect()
}

/// Figures that ask for the same number of points whatever the distances: for every
/// number, or for one in so many from the most downward.
pub fn each_number(version: Version, one_in: usize) -> impl Iterator<Item = ByFigure> {
    let numbers = (1..=MOST_RECTANGULAR).rev().step_by(one_in);
    numbers.flat_map(move |asked| {
        let name = format!("{asked} points asked for");
        let figure = asking(asked);
        by_jobs(version, &name, &figure, &about_number(&figure, asked))
    })
}

fn asking(points: u8) -> Figure {
    let step = |round, rectangular| Step {
        least_distance: 0,
        round,
        rectangular,
    };
    Figure {
        from_last: vec![step(points.min(MOST_ROUND), points)],
        to_next: vec![step(1, 1)],
    }
}

/// Where the figure counts, for each shape: its least number, the allowed ones next to
/// that, and one less than is asked for. And with few points at an undisturbed site.
fn about_number(figure: &Figure, asked: u8) -> Vec<Run> {
    let [round, rectangular] = [[240, 0], [200, 300]].map(stack);
    let mut runs = Vec::new();
    for run in [&round, &rectangular] {
        let least = least_points(run, Some(figure));
        let is_allowed = |points: &u16| is_allowed(run.shape, *points);
        let counts = [
            Some(least),
            (1..least).rev().find(is_allowed),
            (least + 1..=64).find(is_allowed),
            Some(u16::from(asked) - 1).filter(|&points| points > 0),
        ];
        let counts = counts.into_iter().flatten();
        runs.extend(counts.map(|points| with_points(run, points)));
    }
    let undisturbed = Run {
        from_last_disturbance: round.from_last_disturbance + 1,
        to_next_disturbance: round.to_next_disturbance + 1,
        ..round
    };
    runs.extend([4, 8].map(|points| with_points(&undisturbed, points)));
    runs
}
