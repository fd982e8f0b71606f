//! Refusal 14: each field of a figure in trouble, its place, and which trouble is met
//! first, also beside a job in trouble.

use independent::figure::{Figure, Step};
use independent::{reduce_by_figure, samples, sheet_by_figure, sheet_text_by_figure};

/// Where the fields of `two_steps` stand.
const VERSION: usize = 3;
const LAST_COUNT: usize = 5;
const LAST_STEPS: [usize; 2] = [6, 10];
const NEXT_COUNT: usize = 14;
const NEXT_STEPS: [usize; 2] = [15, 19];
const LENGTH: usize = 23;

/// Where a step's fields stand in it.
const DISTANCE: usize = 0;
const ROUND: usize = 2;
const RECTANGULAR: usize = 3;

fn step(least_distance: u16, round: u8, rectangular: u8) -> Step {
    Step {
        least_distance,
        round,
        rectangular,
    }
}

fn two_steps() -> Figure {
    Figure {
        from_last: vec![step(300, 48, 49), step(500, 20, 16)],
        to_next: vec![step(0, 24, 30), step(150, 24, 30)],
    }
}

fn two_steps_with(at: usize, values: &[u8]) -> Vec<u8> {
    let mut figure = two_steps().bytes();
    figure[at..at + values.len()].copy_from_slice(values);
    figure
}

/// The number and place that both calls and the printed sheet refuse a figure with, and
/// no lent byte is changed. It is so with a job that is read, whose run is there or not,
/// with one that is not read, and with outputs of any length.
fn refused(figure: &[u8]) -> (u64, usize) {
    let jobs = [
        samples::worked().bytes(),
        samples::refused().bytes(),
        vec![],
    ];
    let answers = jobs.map(|job| refused_beside(figure, &job));
    assert_eq!(answers, [answers[0]; 3]);
    let (number, place) = (answers[0] >> 32, answers[0] & 0xFFFF_FFFF);
    (number, place as usize)
}

fn refused_beside(figure: &[u8], job: &[u8]) -> u64 {
    let mut text = [0xA5; 500];
    let answer = sheet_text_by_figure(figure, job, &mut text);
    assert_eq!(sheet_text_by_figure(figure, job, &mut []), answer);
    assert_eq!(text, [0xA5; 500]);
    for run in [7, 8] {
        let mut lines = [0xA5; 200];
        let mut findings = [0x5A; 40];
        let reduced = reduce_by_figure(figure, job, run, &mut lines, &mut findings);
        assert_eq!(reduced, answer);
        assert_eq!((lines, findings), ([0xA5; 200], [0x5A; 40]));
        assert_eq!(reduce_by_figure(figure, job, run, &mut [], &mut []), answer);
    }
    let (number, place) = (answer >> 32, answer & 0xFFFF_FFFF);
    let printed = format!("REFUSED {number} {place}\n");
    assert_eq!(sheet_by_figure(figure, job), printed.into_bytes());
    answer
}

#[test]
fn the_bytes_of_a_figure() {
    let expected = [
        &b"FIG\x01\x00"[..],
        &[2, 44, 1, 48, 49, 244, 1, 20, 16],
        &[2, 0, 0, 24, 30, 150, 0, 24, 30],
    ];
    let figure = two_steps().bytes();
    assert_eq!(figure, expected.concat());
    assert_eq!(figure.len(), LENGTH);
    assert_eq!(Figure::read(&figure), Ok(two_steps()));
}

#[test]
fn the_sample_is_read() {
    let figure = samples::made_up();
    assert_eq!(Figure::read(&figure.bytes()), Ok(figure));
}

#[test]
fn every_truncation_is_refused_at_its_length() {
    for figure in [two_steps().bytes(), samples::made_up().bytes()] {
        for length in 0..figure.len() {
            assert_eq!(refused(&figure[..length]), (14, length));
        }
    }
}

#[test]
fn a_field_is_judged_as_soon_as_it_is_complete() {
    assert_eq!(refused(b""), (14, 0));
    assert_eq!(refused(b"XI"), (14, 2));
    assert_eq!(refused(b"XIG"), (14, 0));
    assert_eq!(refused(b"FIG\x02"), (14, 4));
    assert_eq!(refused(b"FIG\x02\x00"), (14, VERSION));
    assert_eq!(refused(b"FIG\x01\x00\x00"), (14, LAST_COUNT));
    // A step whose distance does not rise, cut off within it, behind it and later.
    let [_, second] = LAST_STEPS;
    let falling = two_steps_with(second, &300_u16.to_le_bytes());
    assert_eq!(refused(&falling[..second + 1]), (14, second + 1));
    for length in [second + 2, second + 3, LENGTH] {
        assert_eq!(refused(&falling[..length]), (14, second));
    }
}

#[test]
fn marks() {
    for at in 0..3 {
        for value in [0, b'f', b'X', 255] {
            assert_eq!(refused(&two_steps_with(at, &[value])), (14, 0));
        }
    }
}

#[test]
fn versions_other_than_1() {
    for version in [0, 2, 256, 257, 65_535_u16] {
        let figure = two_steps_with(VERSION, &version.to_le_bytes());
        assert_eq!(refused(&figure), (14, VERSION), "version {version}");
    }
}

#[test]
fn counts() {
    for count in [LAST_COUNT, NEXT_COUNT] {
        for out_of_range in [0, 17, 255] {
            let figure = two_steps_with(count, &[out_of_range]);
            assert_eq!(refused(&figure), (14, count));
        }
    }
    // One step more than there are: the file ends before it.
    assert_eq!(refused(&two_steps_with(NEXT_COUNT, &[3])), (14, LENGTH));
    // One less: a step is left over.
    let [_, left_over] = NEXT_STEPS;
    let figure = two_steps_with(NEXT_COUNT, &[1]);
    assert_eq!(refused(&figure), (14, left_over));
}

#[test]
fn one_to_sixteen_steps_in_each_list() {
    let steps = |count: u16| -> Vec<Step> {
        let distances = (0..count).map(|k| 100 * k);
        distances.map(|distance| step(distance, 24, 25)).collect()
    };
    for (last, next, length) in [(1, 1, 15), (1, 16, 75), (16, 1, 75), (16, 16, 135)] {
        let figure = Figure {
            from_last: steps(last),
            to_next: steps(next),
        };
        assert_eq!(figure.bytes().len(), length);
        assert_eq!(Figure::read(&figure.bytes()), Ok(figure));
    }
    let seventeen = |last, next, place| {
        let figure = Figure {
            from_last: steps(last),
            to_next: steps(next),
        };
        assert_eq!(refused(&figure.bytes()), (14, place));
    };
    seventeen(17, 1, 5);
    seventeen(1, 17, 10);
    seventeen(16, 17, 70);
}

#[test]
fn distances_rise() {
    for [first, second] in [LAST_STEPS, NEXT_STEPS] {
        // The first may be anything, the second anything above it.
        for (distances, will_do) in [
            ([0, 1], true),
            ([0, 65_535], true),
            ([65_534, 65_535], true),
            ([0, 0], false),
            ([1, 0], false),
            ([255, 256], true),
            ([256, 255], false),
            ([65_535, 65_535], false),
            ([65_535, 0], false),
        ] {
            let mut figure = two_steps_with(first, &u16::to_le_bytes(distances[0]));
            figure[second..second + 2].copy_from_slice(&u16::to_le_bytes(distances[1]));
            match will_do {
                true => assert!(Figure::read(&figure).is_ok(), "{distances:?}"),
                false => assert_eq!(refused(&figure), (14, second + DISTANCE)),
            }
        }
    }
}

#[test]
fn points_never_rise() {
    for [first, second] in [LAST_STEPS, NEXT_STEPS] {
        for (field, most) in [(ROUND, 48), (RECTANGULAR, 49)] {
            let with_points = |before: u8, behind: u8| {
                let mut figure = two_steps_with(first + field, &[before]);
                figure[second + field] = behind;
                figure
            };
            for (before, behind) in [(most, most), (most, 1), (2, 2), (2, 1), (1, 1)] {
                assert!(Figure::read(&with_points(before, behind)).is_ok());
            }
            for (before, behind) in [(1, 2), (most - 1, most), (most, most + 1), (2, 0)] {
                let figure = with_points(before, behind);
                assert_eq!(refused(&figure), (14, second + field));
            }
            for before in [0, most + 1, most + 2, 255] {
                let figure = with_points(before, 1);
                assert_eq!(refused(&figure), (14, first + field));
            }
        }
    }
}

/// Round points do not bound rectangular ones, nor those of one list the other's.
#[test]
fn points_are_bounded_by_their_own_alone() {
    let figure = Figure {
        from_last: vec![step(0, 1, 49), step(1, 1, 49)],
        to_next: vec![step(0, 48, 1), step(1, 48, 1)],
    };
    assert_eq!(Figure::read(&figure.bytes()), Ok(figure));
}

#[test]
fn bytes_left_over() {
    for more in [1, 4, 300] {
        let mut figure = two_steps().bytes();
        figure.resize(LENGTH + more, 0);
        assert_eq!(refused(&figure), (14, LENGTH));
    }
}

/// Every field from the last to the first, each spoilt beside all that are behind it.
#[test]
fn the_first_field_in_trouble_is_the_place() {
    let mut figure = two_steps().bytes();
    figure.push(0);
    assert_eq!(refused(&figure), (14, LENGTH));
    let mut spoil = |at: usize, values: &[u8]| {
        figure[at..at + values.len()].copy_from_slice(values);
        assert_eq!(refused(&figure), (14, at));
    };
    for (count, [first, second]) in [(NEXT_COUNT, NEXT_STEPS), (LAST_COUNT, LAST_STEPS)] {
        spoil(second + RECTANGULAR, &[50]);
        spoil(second + ROUND, &[49]);
        spoil(second + DISTANCE, &[0, 0]);
        spoil(first + RECTANGULAR, &[0]);
        spoil(first + ROUND, &[0]);
        spoil(count, &[17]);
    }
    spoil(VERSION, &[2]);
    spoil(0, b"X");
}

#[test]
fn a_good_figure_leaves_the_jobs_own_refusals() {
    let figure = two_steps().bytes();
    let answer = |job: &[u8], run, lines_len| {
        let (mut lines, mut findings) = (vec![0xA5; lines_len], [0x5A; 40]);
        let answer = reduce_by_figure(&figure, job, run, &mut lines, &mut findings);
        (answer >> 32, answer & 0xFFFF_FFFF)
    };
    let worked = samples::worked().bytes();
    assert_eq!(answer(&samples::refused().bytes(), 8, 0), (5, 167));
    assert_eq!(answer(&[], 8, 0), (1, 0));
    assert_eq!(answer(&worked, 8, 0), (10, 0));
    assert_eq!(answer(&worked, 7, 179), (9, 0));
    assert_eq!(answer(&worked, 7, 180), (0, 65_537));
}
