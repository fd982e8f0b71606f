//! Percents isokinetic past either limit, with a remainder and without, and stacks
//! without a velocity; with the meter's after certificate and without it.

use independent::job::{Job, Run};
use independent::samples;

use super::{with_runs, worked_run};

pub fn jobs() -> Vec<(&'static str, Job)> {
    vec![
        ("percents past their limits", past_limits()),
        (
            "percents past their limits, without an after certificate",
            without_after(past_limits()),
        ),
        ("stack without a velocity", still()),
        (
            "stack without a velocity, without an after certificate",
            without_after(still()),
        ),
    ]
}

/// The second run of the sample is at 9,000 without a remainder: in twice its time it is
/// at 4,500, and in half of it at 18,000. Its others are past a limit with a remainder,
/// and those of the worked run further from it.
fn past_limits() -> Job {
    let limits = samples::percent_limits();
    let [below, at, _, above] = [0, 1, 2, 3].map(|index| limits.runs[index].clone());
    let metered = |volume| {
        let mut run = worked_run();
        run.last_reading = run.first_reading + volume;
        run
    };
    let mut job = with_runs([below, lasting(&at, 10_000), lasting(&at, 2_500), above]);
    job.certificates = limits.certificates;
    let more = [metered(30_001), metered(50_001)].into_iter().zip(5..);
    job.runs
        .extend(more.map(|(run, number)| Run { number, ..run }));
    job
}

/// The run with its points of 625 seconds as many as that time takes.
fn lasting(run: &Run, seconds: u16) -> Run {
    let mut run = run.clone();
    let points = usize::from(seconds / run.points[0].seconds);
    run.points = vec![run.points[0]; points];
    run.segments[0].seconds = seconds;
    run
}

fn still() -> Job {
    let mut run = worked_run();
    for point in &mut run.points {
        point.velocity_head = 0;
    }
    with_runs([run])
}

fn without_after(mut job: Job) -> Job {
    let day = job.runs[0].day;
    job.certificates.retain(|one| one.day <= day);
    job
}
