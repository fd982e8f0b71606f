//! What a figure makes of rule 9, on either side of each of its steps.

use independent::figure::{Figure, Step};
use independent::job::{Job, Run, Shape};
use independent::{
    least_points, reduce, reduce_by_figure, samples, sheet, sheet_by_figure, sheet_text_by_figure,
    work,
};

const ROUND: [u16; 2] = [240, 0];
/// 2·50·117/167 is 70.06 (a hair above 7 in): no distance is a whole number of its
/// hundredths.
const UNEVEN: [u16; 2] = [50, 117];
/// 24 in exactly.
const EVEN: [u16; 2] = [200, 300];

fn step(least_distance: u16, round: u8, rectangular: u8) -> Step {
    Step {
        least_distance,
        round,
        rectangular,
    }
}

/// Asks for these by the distance from the last disturbance, and for 1 by that to the
/// next.
fn by_last(steps: &[Step]) -> Figure {
    Figure {
        from_last: steps.to_vec(),
        to_next: vec![step(0, 1, 1)],
    }
}

fn by_next(steps: &[Step]) -> Figure {
    Figure {
        from_last: vec![step(0, 1, 1)],
        to_next: steps.to_vec(),
    }
}

/// Asks for the same whatever the distances.
fn asking(round: u8, rectangular: u8) -> Figure {
    by_last(&[step(0, round, rectangular)])
}

/// The worked job's run in a stack with those sides, whose disturbances are that far.
fn run_at(sides: [u16; 2], next: u16, last: u16) -> Run {
    let mut run = samples::worked().runs.remove(0);
    run.shape = match sides[1] {
        0 => Shape::Round,
        _ => Shape::Rectangular,
    };
    run.sides = sides;
    run.to_next_disturbance = next;
    run.from_last_disturbance = last;
    run
}

/// The least number of points by the figure, which is the least with which the run does
/// not break rule 9.
fn least(figure: &Figure, run: &Run) -> u16 {
    let least = least_points(run, Some(figure));
    let kept = (1..=64).find(|&points| !breaks_rule_9(Some(figure), run, points));
    assert_eq!(kept, Some(least));
    least
}

fn breaks_rule_9(figure: Option<&Figure>, run: &Run, points: u16) -> bool {
    let mut job = samples::worked();
    let mut run = run.clone();
    run.points = vec![run.points[0]; usize::from(points)];
    job.runs = vec![run];
    let worked = work(figure, &job, &job.runs[0]);
    worked.findings.iter().any(|finding| finding.rule == 9)
}

#[test]
fn a_distance_takes_its_last_step_that_it_reaches() {
    let steps = [step(100, 40, 42), step(250, 28, 30), step(600, 8, 9)];
    // 24 in: a hundredth of a diameter is 2.4 units.
    for (distance, round, rectangular) in [
        (0, 40, 42),
        (239, 40, 42),
        (240, 40, 42),
        (241, 40, 42),
        (599, 40, 42),
        (600, 28, 30),
        (601, 28, 30),
        (1_439, 28, 30),
        (1_440, 8, 9),
        (65_535, 8, 9),
    ] {
        let (last, next) = (by_last(&steps), by_next(&steps));
        assert_eq!(least(&last, &run_at(ROUND, 0, distance)), round);
        assert_eq!(least(&last, &run_at(EVEN, 0, distance)), rectangular);
        assert_eq!(least(&next, &run_at(ROUND, distance, 0)), round);
        assert_eq!(least(&next, &run_at(EVEN, distance, 0)), rectangular);
    }
}

/// The step is reached from 100·distance = least·diameter on, whatever either rounds to.
#[test]
fn distances_are_compared_without_rounding() {
    let steps = [
        step(0, 20, 20),
        step(99, 16, 16),
        step(100, 12, 12),
        step(101, 8, 9),
    ];
    let rectangular = |distance| least(&by_last(&steps), &run_at(UNEVEN, 0, distance));
    // 0.99, 1 and 1.01 diameters are 69.36, 70.06 and 70.76.
    assert_eq!([69, 70, 71].map(rectangular), [20, 16, 9]);
    let round = |distance| least(&by_next(&steps), &run_at([101, 0], distance, 0));
    // And here 99.99, 101 and 102.01.
    assert_eq!([99, 100, 101, 102, 103].map(round), [20, 16, 12, 12, 8]);
    // A hundredth of the widest stack, and of the narrowest.
    let one = [step(0, 12, 12), step(1, 8, 9)];
    let widest = |distance| least(&by_last(&one), &run_at([9_999, 0], 0, distance));
    assert_eq!([99, 100].map(widest), [12, 8]);
    let narrowest = |distance| least(&by_last(&one), &run_at([1, 0], 0, distance));
    assert_eq!([0, 1].map(narrowest), [12, 8]);
}

#[test]
fn the_first_step_serves_a_distance_that_reaches_none() {
    let steps = [step(200, 36, 36), step(300, 12, 12)];
    for distance in [0, 479, 480] {
        assert_eq!(least(&by_last(&steps), &run_at(ROUND, 0, distance)), 36);
        assert_eq!(least(&by_next(&steps), &run_at(EVEN, distance, 0)), 36);
    }
    let far = [step(65_535, 16, 20)];
    assert_eq!(least(&by_last(&far), &run_at(ROUND, 0, 65_535)), 16);
    assert_eq!(least(&by_next(&far), &run_at(EVEN, 65_535, 0)), 20);
}

#[test]
fn the_higher_of_the_two_counts() {
    let figure = Figure {
        from_last: vec![step(0, 32, 36), step(300, 12, 16)],
        to_next: vec![step(0, 24, 30), step(100, 8, 9)],
    };
    // 3 diameters are 720, and 1 is 240.
    for (next, last, round, rectangular) in [
        (0, 0, 32, 36),
        (240, 719, 32, 36),
        (239, 720, 24, 30),
        (240, 720, 12, 16),
    ] {
        assert_eq!(least(&figure, &run_at(ROUND, next, last)), round);
        assert_eq!(least(&figure, &run_at(EVEN, next, last)), rectangular);
    }
}

/// The shape's own count, also where the other shape's is higher.
#[test]
fn each_shape_has_its_own_count() {
    let figure = Figure {
        from_last: vec![step(0, 40, 9)],
        to_next: vec![step(0, 4, 30)],
    };
    assert_eq!(least(&figure, &run_at(ROUND, 0, 0)), 40);
    assert_eq!(least(&figure, &run_at(EVEN, 0, 0)), 30);
}

#[test]
fn counts_are_raised_to_the_next_allowed() {
    let round = |asked| least(&asking(asked, 1), &run_at(ROUND, 0, 0));
    assert_eq!([1, 4, 5, 8, 9].map(round), [4, 4, 8, 8, 12]);
    assert_eq!([24, 25, 44, 45, 48].map(round), [24, 28, 44, 48, 48]);
    let rectangular = |asked| least(&asking(1, asked), &run_at(EVEN, 0, 0));
    assert_eq!([1, 9, 10, 12, 13].map(rectangular), [9, 9, 12, 12, 16]);
    assert_eq!([16, 17, 20, 21].map(rectangular), [16, 20, 20, 25]);
    assert_eq!([25, 26, 30, 31].map(rectangular), [25, 30, 30, 36]);
    assert_eq!([36, 37, 42, 43, 49].map(rectangular), [36, 42, 42, 49, 49]);
}

#[test]
fn a_number_that_is_not_allowed_breaks_the_rule_though_it_is_enough() {
    let figure = asking(4, 9);
    let broken = |sides, points| breaks_rule_9(Some(&figure), &run_at(sides, 0, 0), points);
    assert_eq!(
        [3, 4, 5, 48, 50, 64].map(|points| broken(ROUND, points)),
        [true, false, true, false, true, false]
    );
    assert_eq!(
        [8, 9, 10, 48, 49, 50].map(|points| broken(EVEN, points)),
        [true, false, true, true, false, true]
    );
}

#[test]
fn the_most_that_a_figure_asks_for() {
    let figure = asking(48, 49);
    let broken = |sides, points| breaks_rule_9(Some(&figure), &run_at(sides, 0, 0), points);
    assert_eq!(
        [44, 48, 52, 64].map(|points| broken(ROUND, points)),
        [true, false, false, false]
    );
    assert_eq!(
        [42, 48, 49, 50].map(|points| broken(EVEN, points)),
        [true, true, false, true]
    );
}

/// At 8 diameters from the last and 2 to the next disturbance a figure changes nothing,
/// and a hair short of either it counts.
#[test]
fn an_undisturbed_site_has_its_own_least() {
    let [few, many] = [asking(1, 1), asking(48, 49)];
    for (sides, next, last, undisturbed) in [
        (ROUND, 480, 1_920, 8),
        ([241, 0], 482, 1_928, 12),
        (EVEN, 480, 1_920, 9),
        // 240.32, so 480.64 and 1922.6.
        ([200, 301], 481, 1_923, 12),
    ] {
        let run = run_at(sides, next, last);
        for figure in [&few, &many] {
            assert_eq!(least(figure, &run), undisturbed);
        }
        assert_eq!(least_points(&run, None), undisturbed);
        let (fewest, most) = match run.shape {
            Shape::Round => (4, 48),
            Shape::Rectangular => (9, 49),
        };
        for disturbed in [run_at(sides, next - 1, last), run_at(sides, next, last - 1)] {
            assert_eq!(least(&few, &disturbed), fewest);
            assert_eq!(least(&many, &disturbed), most);
        }
    }
}

/// With 24 and 25 asked for, every sheet is that without a figure.
#[test]
fn the_house_rule_as_a_figure_changes_no_sheet() {
    let house_rule = asking(24, 25).bytes();
    for (name, sample) in samples::WITH_SHEETS.iter().chain(&samples::WITHOUT) {
        let job = sample().bytes();
        assert_eq!(sheet_by_figure(&house_rule, &job), sheet(&job), "{name}");
    }
}

/// Whether each run of the job is accepted, without a finding, or void by rule 9 alone:
/// first without a figure, and then by the sample.
fn verdicts(job: &[u8], runs: [u16; 2]) -> [[bool; 2]; 2] {
    let figure = samples::made_up().bytes();
    runs.map(|run| {
        let [mut lines, mut lines_by] = [[0; 180]; 2];
        let [mut findings, mut findings_by] = [[0; 4]; 2];
        let answer = reduce(job, run, &mut lines, &mut findings);
        let by_figure = reduce_by_figure(&figure, job, run, &mut lines_by, &mut findings_by);
        assert_eq!(lines, lines_by);
        [(answer, findings), (by_figure, findings_by)].map(|reduced| match reduced {
            (65_536, _) => true,
            (1, [9, 1, 0, 0]) => false,
            other => panic!("{other:?}"),
        })
    })
}

#[test]
fn the_samples_are_told_apart_by_the_figure() {
    let fewer = samples::fewer_points().bytes();
    assert_eq!(verdicts(&fewer, [7, 8]), [[false, true]; 2]);
    let more = samples::more_points().bytes();
    assert_eq!(verdicts(&more, [7, 8]), [[true, false]; 2]);
}

#[test]
fn the_least_numbers_of_the_samples() {
    let figure = samples::made_up();
    let leasts = |job: Job| -> Vec<u16> {
        let runs = job.runs.iter();
        runs.map(|run| least(&figure, run)).collect()
    };
    assert_eq!(leasts(samples::fewer_points()), [16, 20]);
    assert_eq!(leasts(samples::more_points()), [36, 42]);
}

#[test]
fn a_text_by_a_figure_fills_what_it_needs() {
    let figure = samples::made_up().bytes();
    for job in [samples::fewer_points(), samples::more_points()] {
        let job = job.bytes();
        let text = sheet_by_figure(&figure, &job);
        assert_ne!(text, sheet(&job));
        for spare in [0, 3] {
            let mut out = vec![0xA5; text.len() + spare];
            let answer = sheet_text_by_figure(&figure, &job, &mut out);
            assert_eq!(answer, text.len() as u64);
            assert_eq!(out, [&text[..], &vec![0xA5; spare]].concat());
        }
        for length in [0, text.len() - 1] {
            let mut out = vec![0xA5; length];
            assert_eq!(sheet_text_by_figure(&figure, &job, &mut out), 9 << 32);
            assert_eq!(out, vec![0xA5; length]);
        }
    }
}
