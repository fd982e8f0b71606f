//! The values to try a program on of docs/RULES.md that no theorem has: layouts,
//! the worked job in a slow stack, with a factor that moved, with the least gas, at
//! the limits of line 18, by figures, with letters, and made bad.

use leverbonnet::{
    rect_distances, reduce_run, reduce_run_by_figure, round_distances, run_numbers, Class, Error,
    Reduced,
};

const WORKED: &[u8] = include_bytes!("../../examples/worked.job");

/// Where the points of the worked job start.
const POINTS: [usize; 8] = [137, 149, 161, 173, 185, 197, 209, 221];

/// The places behind the serials of the worked job: those of its certificates, then
/// those of its run's meter, pitot tube and nozzle.
const BEHIND_SERIALS: [usize; 7] = [17, 33, 49, 65, 84, 91, 98];

const NO_LETTERS: &[u8; 7] = &[0; 7];

/// Number and place of the refusal of a job.
fn refused(job: &[u8]) -> (u32, u32) {
    match run_numbers(job) {
        Err(Error::Refused(refusal)) => (refusal.number, refusal.place),
        other => panic!("{other:?}"),
    }
}

/// The worked job with other bytes from a place on.
fn with(place: usize, bytes: &[u8]) -> Vec<u8> {
    let mut job = WORKED.to_vec();
    job[place..place + bytes.len()].copy_from_slice(bytes);
    job
}

/// The worked job with both meter certificates of one day.
fn with_one_day() -> Vec<u8> {
    let day_of_the_first_certificate = &WORKED[17..19];
    with(33, day_of_the_first_certificate)
}

/// The worked job, or one with bytes changed, in version 2 with these letters.
fn in_version_2(job: &[u8], letters: &[u8; 7]) -> Vec<u8> {
    let mut job = job.to_vec();
    job[3] = 2;
    for (&place, &letter) in BEHIND_SERIALS.iter().zip(letters).rev() {
        job.insert(place, letter);
    }
    job
}

/// The rules that the run breaks, each with the class of its finding.
fn classes(run: &Reduced) -> Vec<(u8, Class)> {
    let findings = run.findings.iter();
    findings.map(|one| (one.rule, one.class)).collect()
}

/// The rules that the run breaks.
fn rules(run: &Reduced) -> Vec<u8> {
    run.findings.iter().map(|finding| finding.rule).collect()
}

#[test]
fn round_layouts() {
    for ((points, diameter, nozzle), distances) in [
        ((6, 240, 250), &[1056, 3504, 7104, 16896, 20496, 22944][..]),
        ((4, 125, 100), &[838, 3125, 9375, 11663]),
        ((6, 120, 1000), &[1000, 1752, 3552, 8448, 10248, 11000]),
    ] {
        let laid_out = round_distances(points, diameter, nozzle);
        assert_eq!(laid_out, Ok(distances.to_vec()));
    }
}

#[test]
fn a_rectangular_layout() {
    let laid_out = rect_distances(9, 125, 301).unwrap();
    assert_eq!(laid_out[..3], [[2083, 5017], [6250, 5017], [10417, 5017]]);
}

fn put(job: &mut [u8], place: usize, value: u16) {
    job[place..place + 2].copy_from_slice(&value.to_le_bytes());
}

/// The values of these lines of run 7.
fn values<const N: usize>(job: &[u8], lines: [usize; N]) -> [Option<i64>; N] {
    let run = reduce_run(job, 7).unwrap();
    lines.map(|line| run.lines[line - 1].value)
}

#[test]
fn a_slow_stack() {
    let mut job = WORKED.to_vec();
    for point in POINTS {
        put(&mut job, point + 2, 3);
    }
    let expected = [5_477, 8_741, 3_438, 128_847].map(Some);
    assert_eq!(values(&job, [13, 14, 15, 18]), expected);
}

/// The worked job with that factor in its second meter certificate.
fn with_factor_after(factor: u16) -> Vec<u8> {
    with(35, &factor.to_le_bytes())
}

#[test]
fn a_factor_that_moved_by_just_5_percent_has_not_moved() {
    let worked = reduce_run(WORKED, 7);
    for after in [9_500, 10_500] {
        let job = with_factor_after(after);
        assert_eq!(reduce_run(&job, 7), worked);
        assert_eq!(reduce_run(&in_version_2(&job, NO_LETTERS), 7), worked);
    }
}

#[test]
fn a_factor_that_moved_is_a_note_in_version_1_with_the_lower_factor() {
    let (up, down) = (with_factor_after(10_501), with_factor_after(9_499));
    for job in [&up, &down] {
        let run = reduce_run(job, 7).unwrap();
        assert_eq!(classes(&run), [(5, Class::Note), (11, Class::Note)]);
        assert!(run.accepted);
    }
    let worked = reduce_run(WORKED, 7).unwrap();
    assert_eq!(reduce_run(&up, 7).unwrap().lines, worked.lines);
    let expected = [36_857, 9_525, 4_421].map(Some);
    assert_eq!(values(&down, [6, 18, 20]), expected);
}

#[test]
fn a_factor_that_moved_is_a_fault_in_version_2_with_the_factor_before() {
    let worked = reduce_run(WORKED, 7).unwrap();
    for after in [10_501, 9_499] {
        let job = in_version_2(&with_factor_after(after), NO_LETTERS);
        let run = reduce_run(&job, 7).unwrap();
        assert_eq!(run.lines, worked.lines);
        assert_eq!(classes(&run), [(5, Class::Fault), (11, Class::Note)]);
        assert!(!run.accepted);
    }
}

/// The worked job with its last disturbance so far off and so many points, all as its
/// own but for their seconds.
fn near(last_disturbance: u16, points: u8, seconds: u16) -> Vec<u8> {
    let mut job = with(123, &last_disturbance.to_le_bytes());
    job[133] = points;
    let mut point = job[POINTS[0]..POINTS[1]].to_vec();
    put(&mut point, 0, seconds);
    let all = POINTS[0]..POINTS[7] + point.len();
    job.splice(all, point.repeat(points.into()));
    job
}

/// A list of steps: least distance, points round and rectangular.
type Steps<'a> = &'a [(u16, u8, u8)];

/// The figure of these two lists.
fn figure(lists: [Steps; 2]) -> Vec<u8> {
    let mut bytes = b"FIG\x01\0".to_vec();
    for steps in lists {
        bytes.push(steps.len() as u8);
        for &(least, round, rectangular) in steps {
            bytes.extend(least.to_le_bytes());
            bytes.extend([round, rectangular]);
        }
    }
    bytes
}

/// The figure that asks for so many points, whatever the shape and the distances.
fn asks_for(points: u8) -> Vec<u8> {
    figure([&[(0, points, points)]; 2])
}

/// Whether a run is the worked job's, but for a fault 9 that makes it void.
fn is_void_by_nine(run: &Reduced) -> bool {
    let worked = reduce_run(WORKED, 7).unwrap();
    assert_eq!(run.lines, worked.lines);
    if run.accepted {
        assert_eq!(*run, worked);
        return false;
    }
    assert_eq!(classes(run), [(9, Class::Fault), (11, Class::Note)]);
    true
}

#[test]
fn a_disturbance_that_is_near() {
    let fewer = near(1_919, 8, 450);
    let more = near(1_919, 24, 150);
    let by_figure = |points, job| reduce_run_by_figure(&asks_for(points), job, 7).unwrap();
    assert!(is_void_by_nine(&reduce_run(&fewer, 7).unwrap()));
    assert!(!is_void_by_nine(&by_figure(8, &fewer)));
    assert!(!is_void_by_nine(&reduce_run(&more, 7).unwrap()));
    assert!(is_void_by_nine(&by_figure(36, &more)));
    let fewest = near(1_919, 4, 900);
    assert!(!is_void_by_nine(&by_figure(1, &fewest)));
}

#[test]
fn either_side_of_a_step() {
    let steps = figure([&[(0, 48, 49), (799, 24, 25)], &[(0, 8, 9)]]);
    for (last_disturbance, is_void) in [(1_917, true), (1_918, false)] {
        let job = near(last_disturbance, 24, 150);
        let run = reduce_run_by_figure(&steps, &job, 7).unwrap();
        assert_eq!(is_void_by_nine(&run), is_void);
    }
}

#[test]
fn a_figure_that_is_refused() {
    for (figure, place) in [(&b"XIG"[..], 0), (b"XI", 2), (b"FIG\x01", 4), (b"", 0)] {
        match reduce_run_by_figure(figure, WORKED, 7) {
            Err(Error::Refused(refusal)) => {
                assert_eq!((refusal.number, refusal.place), (14, place))
            }
            other => panic!("{other:?}"),
        }
    }
}

#[test]
fn the_least_dry_volume() {
    let mut job = with(110, &100_001u32.to_le_bytes());
    for (place, value) in [(19, 9_000), (35, 9_000), (98, 2_000), (235, 0)] {
        put(&mut job, place, value);
    }
    for point in POINTS {
        put(&mut job, point + 4, 0);
        put(&mut job, point + 8, 1_500);
        put(&mut job, point + 10, 1_500);
    }
    let expected = [1, 200_000, 6_100, 1].map(Some);
    assert_eq!(values(&job, [3, 4, 5, 6]), expected);
}

/// The worked job with a nozzle of 218 and eight tight points of 625 seconds, at
/// that head and last meter reading.
fn at_a_limit(head: u16, reading: u32) -> Vec<u8> {
    let mut job = with(110, &reading.to_le_bytes());
    for (place, value) in [(67, 218), (69, 218), (71, 218), (233, 5_000), (235, 0)] {
        put(&mut job, place, value);
    }
    for point in POINTS {
        put(&mut job, point, 625);
        put(&mut job, point + 2, head);
    }
    job
}

#[test]
fn the_percent_is_judged_before_it_is_rounded() {
    for (head, reading, lines, broken) in [
        (432, 134_439, [41_375, 25_920, 80_431, 9_000], &[15][..]),
        (432, 134_440, [41_375, 25_920, 80_433, 9_000], &[]),
        (428, 142_721, [41_000, 25_920, 97_416, 11_000], &[]),
        (428, 142_722, [41_000, 25_920, 97_418, 11_000], &[16]),
    ] {
        let job = at_a_limit(head, reading);
        assert_eq!(values(&job, [15, 16, 17, 18]), lines.map(Some));
        let run = reduce_run(&job, 7).unwrap();
        assert_eq!(rules(&run), broken);
        assert_eq!(run.accepted, broken.is_empty());
    }
}

#[test]
fn certificates_of_the_runs_own_letter() {
    let worked = reduce_run(WORKED, 7).unwrap();
    assert_eq!(in_version_2(WORKED, NO_LETTERS).len(), 272);
    for (job, letters, broken) in [
        (WORKED, NO_LETTERS, &[11][..]),
        (WORKED, b"AA\0\0A\0\0", &[11]),
        (WORKED, b"\0A\0\0\0\0\0", &[4, 11]),
        (&with_one_day(), b"\0A\0\0\0\0\0", &[4, 11]),
    ] {
        let run = reduce_run(&in_version_2(job, letters), 7).unwrap();
        assert_eq!(rules(&run), broken);
        assert_eq!(run.lines, worked.lines);
    }
}

#[test]
fn a_rebuilt_meter_without_a_certificate() {
    let run = reduce_run(&in_version_2(WORKED, b"\0\0\0\0A\0\0"), 7).unwrap();
    assert_eq!(rules(&run), [1, 4, 11]);
    let absent = run.lines.iter().filter(|line| line.value.is_none());
    let absent: Vec<u8> = absent.map(|line| line.number).collect();
    assert_eq!(absent, [6, 8, 10, 14, 15, 17, 18, 20]);
}

#[test]
fn jobs_that_are_refused() {
    let mut with_a_byte_behind = WORKED.to_vec();
    with_a_byte_behind.push(0);
    for (job, refusal) in [
        (Vec::new(), (1, 0)),
        (WORKED[..100].to_vec(), (1, 100)),
        (with(3, &[0]), (3, 3)),
        (with(3, &[3]), (3, 3)),
        (with(3, &[2]), (5, 17)),
        (with(7, &[0]), (4, 7)),
        (with(5, &[65]), (4, 5)),
        (with(11, b"b"), (5, 10)),
        (with_one_day(), (6, 25)),
        (with(233, &3599u16.to_le_bytes()), (7, 73)),
        (with(233, &3601u16.to_le_bytes()), (7, 73)),
        (with_a_byte_behind, (8, 265)),
        (in_version_2(WORKED, b"\0\0\0\0\0\0a"), (5, 104)),
        (in_version_2(&with_one_day(), NO_LETTERS), (6, 26)),
    ] {
        assert_eq!(refused(&job), refusal);
    }
}
