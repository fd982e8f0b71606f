//! The typed calls, by the way that this build has. Over the pipe they need the
//! program `calls`, named in LEVERBONNET_CALLS.

use std::thread;

use leverbonnet::{
    rect_distances, reduce_run, reduce_run_by_figure, round_distances, run_numbers,
    sheet_text_by_figure, Class, Error, Finding, Line, Reduced, Refusal,
};

const WORKED: &[u8] = include_bytes!("../../examples/worked.job");
const SEVERAL_RUNS: &[u8] = include_bytes!("../../examples/several-runs.job");
const REFUSED: &[u8] = include_bytes!("../../examples/refused.job");

#[test]
fn the_worked_run() {
    let reduced = reduce_run(WORKED, 7).unwrap();
    let lines = [
        3600, 40000, 39400, 301471, 5400, 38801, 4707, 10819, 30160, 28844, 299500, 6600, 70711,
        8741, 44386, 34089, 90604, 9980, 1056, 4199,
    ];
    assert_eq!((reduced.number, reduced.accepted), (7, true));
    for (index, line) in reduced.lines.iter().enumerate() {
        let (number, value) = (index as u8 + 1, Some(lines[index]));
        assert_eq!(*line, Line { number, value });
    }
    let note = Finding {
        rule: 11,
        class: Class::Note,
        place: 1,
    };
    assert_eq!(reduced.findings, [note]);
}

#[test]
fn a_void_run_with_absent_lines() {
    // Run 13 caught less than nothing and weighed no rinse.
    let reduced = reduce_run(SEVERAL_RUNS, 13).unwrap();
    assert_eq!((reduced.number, reduced.accepted), (13, false));
    assert_eq!(
        reduced.lines[18..]
            .iter()
            .map(|line| line.value)
            .collect::<Vec<_>>(),
        [Some(-24), None]
    );
    let found = reduced.findings.iter();
    let found: Vec<_> = found.map(|one| (one.rule, one.class, one.place)).collect();
    let fault = Class::Fault;
    assert_eq!(
        found,
        [
            (11, Class::Note, 1),
            (17, fault, 1),
            (19, fault, 0),
            (20, fault, 0)
        ]
    );
}

#[test]
fn runs_in_file_order() {
    let numbers = run_numbers(SEVERAL_RUNS);
    assert_eq!(numbers, Ok(vec![1, 2, 3, 10, 11, 12, 13, 20, 999]));
}

/// A figure with one step in each list, which asks for so many points at every
/// distance.
fn figure(round: u8, rectangular: u8) -> Vec<u8> {
    let list = [1, 0, 0, round, rectangular];
    [&b"FIG\x01\0"[..], &list, &list].concat()
}

/// The worked job, whose stack is 24.0 in wide, with that distance from the last
/// disturbance, 0.1 in: 8 diameters are 1,920.
fn worked_at(from_the_last: u16) -> Vec<u8> {
    let mut job = WORKED.to_vec();
    job[123..125].copy_from_slice(&from_the_last.to_le_bytes());
    job
}

/// Whether the run of a job, by that figure or without one, has too few points.
fn too_few_points(figure: Option<&[u8]>, job: &[u8]) -> bool {
    let run = match figure {
        Some(figure) => reduce_run_by_figure(figure, job, 7),
        None => reduce_run(job, 7),
    };
    run.unwrap()
        .findings
        .iter()
        .any(|finding| finding.rule == 9)
}

#[test]
fn near_a_disturbance_a_figure_takes_the_place_of_the_house_rule() {
    let near = worked_at(1_919);
    assert!(too_few_points(None, &near));
    for points in 1..=48 {
        let by_figure = too_few_points(Some(&figure(points, 49)), &near);
        assert_eq!(by_figure, points > 8, "its 8 points against {points}");
    }
}

#[test]
fn far_from_disturbances_a_figure_changes_nothing() {
    let far = worked_at(1_920);
    assert_eq!(far, WORKED);
    for (round, rectangular) in [(1, 1), (48, 49)] {
        let by_figure = reduce_run_by_figure(&figure(round, rectangular), &far, 7);
        assert_eq!(by_figure, reduce_run(&far, 7));
    }
}

#[test]
fn a_figure_is_refused_before_the_job() {
    let refused = |number, place| Error::Refused(Refusal { number, place });
    let bad = figure(49, 49);
    for job in [WORKED, REFUSED, &[]] {
        assert_eq!(reduce_run_by_figure(&bad, job, 8), Err(refused(14, 8)));
        assert_eq!(sheet_text_by_figure(&bad, job), Err(refused(14, 8)));
    }
    let good = figure(24, 25);
    assert_eq!(sheet_text_by_figure(&good, REFUSED), Err(refused(5, 167)));
    assert_eq!(reduce_run_by_figure(&good, WORKED, 8), Err(refused(10, 0)));
}

#[test]
fn refusals() {
    let refused = |number, place| Error::Refused(Refusal { number, place });
    assert_eq!(reduce_run(&[], 7), Err(refused(1, 0)));
    assert_eq!(run_numbers(REFUSED), Err(refused(5, 167)));
    assert_eq!(reduce_run(WORKED, 8), Err(refused(10, 0)));
    assert_eq!(round_distances(3, 240, 250), Err(refused(11, 0)));
    assert_eq!(rect_distances(8, 240, 240), Err(refused(11, 0)));
}

#[test]
fn layouts() {
    let round = round_distances(6, 1_000, 250);
    let thousandths = [44, 146, 296, 704, 854, 956];
    assert_eq!(round, Ok(thousandths.map(|p| 100 * p).to_vec()));
    let cells = rect_distances(12, 400, 300).unwrap();
    assert_eq!(cells.len(), 12);
    assert_eq!(cells[..2], [[5_000, 5_000], [15_000, 5_000]]);
    assert_eq!(cells[11], [35_000, 25_000]);
}

#[test]
fn threads_that_call_at_once_get_their_own_answers() {
    let callers: Vec<_> = (2..=24)
        .step_by(2)
        .map(|points| thread::spawn(move || (points, round_distances(points, 1_000, 250))))
        .collect();
    for caller in callers {
        let (points, distances) = caller.join().unwrap();
        assert_eq!(distances.unwrap().len(), usize::from(points));
    }
}

#[test]
fn every_type_may_be_sent_and_shared() {
    fn assert<T: Send + Sync>() {}
    assert::<Error>();
    assert::<Reduced>();
    assert::<leverbonnet::Explanation>();
    assert::<leverbonnet::field::Record>();
    assert::<leverbonnet::texts::RuleText>();
    assert::<leverbonnet::texts::ClassText>();
    assert::<leverbonnet::pipe::Pipe>();
}
