//! The letters of version 2: where they stand, what they may be, and that they
//! count wherever maker and serial do.

use independent::job::{Instrument, Job, Run, Version, NO_LETTER};
use independent::{read, reduce, run_count, samples, sheet, work, Reason, Refusal};

/// Where the worked job's letters stand in version 2: that of its first
/// certificate, and those of its run's meter, pitot and nozzle.
const CERTIFICATE: usize = 9 + 8;
const RUN: usize = 9 + 4 * 17;
const PLACES: [usize; 4] = [CERTIFICATE, RUN + 11, RUN + 19, RUN + 27];

fn worked() -> Job {
    Job {
        version: Version::Two,
        ..samples::worked()
    }
}

fn with_bytes(at: usize, values: &[u8]) -> Vec<u8> {
    let mut job = worked().bytes();
    job[at..at + values.len()].copy_from_slice(values);
    job
}

fn refused(job: &[u8], number: u64, place: usize) {
    assert_eq!(run_count(job), number << 32 | place as u64);
}

/// The letters that are read at those places.
fn letters(job: &Job) -> [u8; 4] {
    let run = &job.runs[0];
    let certified = job.certificates[0].instrument;
    [certified, run.meter, run.pitot, run.nozzle].map(|instrument| instrument.letter)
}

#[test]
fn none_or_a_to_z_at_each_place() {
    for (k, place) in PLACES.into_iter().enumerate() {
        for byte in 0..=255 {
            let job = with_bytes(place, &[byte]);
            if matches!(byte, 0 | 65..=90) {
                let mut expected = [NO_LETTER; 4];
                expected[k] = byte;
                assert_eq!(letters(&read(&job).unwrap()), expected);
            } else {
                refused(&job, 5, place);
            }
        }
    }
}

#[test]
fn a_letter_is_met_behind_its_serial_and_before_what_follows() {
    let serial_and_letter = [0, 0, 0, 0, b'a'];
    for place in PLACES {
        refused(&with_bytes(place - 4, &serial_and_letter), 5, place - 4);
    }
    // Behind a certificate's letter its day, which may be anything, and its value.
    refused(
        &with_bytes(CERTIFICATE, &[b'a', 0, 0, 0, 0]),
        5,
        CERTIFICATE,
    );
    refused(
        &with_bytes(CERTIFICATE, &[b'A', 0, 0, 0, 0]),
        5,
        CERTIFICATE + 3,
    );
    // Behind a run's letters the next maker, or the barometer.
    for place in PLACES[1..].iter().copied() {
        refused(&with_bytes(place, &[b'a', 0, 0]), 5, place);
        refused(&with_bytes(place, &[b'A', 0, 0]), 5, place + 1);
    }
}

#[test]
fn a_record_is_incomplete_until_its_last_byte() {
    let job = worked().bytes();
    for place in PLACES {
        refused(&job[..place], 1, place);
        // A bad letter in it is not looked at.
        let cut = &with_bytes(place, b"a")[..place + 1];
        refused(cut, 1, place + 1);
    }
    // Complete in version 1, a byte short in version 2.
    refused(&job[..9 + 16], 1, 9 + 16);
    for length in RUN + 64..RUN + 67 {
        refused(&job[..length], 1, length);
    }
}

#[test]
fn what_is_written_is_read_back() {
    for job in [
        worked(),
        samples::worked(),
        samples::rebuilt_meter(),
        samples::rebuilt_meter_no_letter(),
        samples::moved_factor(),
        samples::moved_factor_version_2(),
        samples::longest(),
        samples::longest_version_2(),
    ] {
        assert_eq!(read(&job.bytes()), Ok(job));
    }
}

#[test]
fn version_1_writes_no_letter() {
    let mut lettered = worked();
    for instrument in lettered.instruments_mut() {
        instrument.letter = b'Q';
    }
    lettered.version = Version::One;
    assert_eq!(lettered.bytes(), samples::worked().bytes());
}

/// The worked job with its first certificate once more, with that letter.
fn repeated_with(letter: u8) -> Job {
    let mut job = worked();
    let mut again = job.certificates[0];
    again.instrument.letter = letter;
    job.certificates.push(again);
    job
}

#[test]
fn certificates_that_differ_by_the_letter_alone_do_not_repeat() {
    assert!(read(&repeated_with(b'A').bytes()).is_ok());
    refused(&repeated_with(NO_LETTER).bytes(), 6, RUN);

    let mut both_lettered = repeated_with(b'A');
    both_lettered.certificates[0].instrument.letter = b'B';
    assert!(read(&both_lettered.bytes()).is_ok());
    both_lettered.certificates[0].instrument.letter = b'A';
    refused(&both_lettered.bytes(), 6, RUN);
}

/// The rules of missing certificates that are found where one instrument of the
/// run has the letter `used`, and all else the letter `certified`.
fn missing(used: u8, certified: u8, by: fn(&mut Run) -> &mut Instrument) -> Vec<u8> {
    let mut job = worked();
    for instrument in job.instruments_mut() {
        instrument.letter = certified;
    }
    by(&mut job.runs[0]).letter = used;
    let findings = work(None, &job, &job.runs[0]).findings.into_iter();
    findings
        .map(|finding| finding.rule)
        .filter(|rule| (1..=4).contains(rule))
        .collect()
}

#[test]
fn a_certificate_with_another_letter_is_none() {
    for (used, certified) in [(b'A', NO_LETTER), (NO_LETTER, b'A'), (b'B', b'A')] {
        assert_eq!(missing(used, certified, |run| &mut run.meter), [1, 4]);
        assert_eq!(missing(used, certified, |run| &mut run.pitot), [2]);
        assert_eq!(missing(used, certified, |run| &mut run.nozzle), [3]);
    }
    assert_eq!(missing(b'A', b'A', |run| &mut run.meter), []);
}

#[test]
fn a_nearer_certificate_with_another_letter_is_passed_over() {
    let mut job = worked();
    let [mut before, mut after] = [job.certificates[0], job.certificates[1]];
    (before.day, before.values[0], before.instrument.letter) = (9_000, 9_000, b'A');
    (after.day, after.values[0], after.instrument.letter) = (9_001, 11_000, b'A');
    job.certificates.extend([before, after]);
    assert_eq!(sheet(&job.bytes()), sheet(&samples::worked().bytes()));

    job.runs[0].meter.letter = b'A';
    assert_ne!(sheet(&job.bytes()), sheet(&samples::worked().bytes()));
}

/// What `reduce` writes of each run.
fn reduced(job: &Job) -> Vec<(u64, [u8; 180], [u8; 392])> {
    let bytes = job.bytes();
    let runs = job.runs.iter();
    runs.map(|run| {
        let (mut lines, mut findings) = ([0; 180], [0; 392]);
        let answer = reduce(&bytes, run.number, &mut lines, &mut findings);
        assert_eq!(answer >> 32, 0);
        (answer, lines, findings)
    })
    .collect()
}

/// The numbers of a job's runs that come to something else in version 2.
fn unlike_in_version_2(job: &Job) -> Vec<u16> {
    let twin = Job {
        version: Version::Two,
        ..job.clone()
    };
    assert_eq!(
        read(&twin.bytes()).map(|twin| twin.version),
        Ok(Version::Two)
    );
    let both = reduced(job).into_iter().zip(reduced(&twin));
    let runs = job.runs.iter().zip(both);
    let unlike: Vec<u16> = runs
        .filter(|(_, (reduced, in_twin))| reduced != in_twin)
        .map(|(run, _)| run.number)
        .collect();
    let same_sheet = sheet(&twin.bytes()) == sheet(&job.bytes());
    assert_eq!(same_sheet, unlike.is_empty());
    unlike
}

#[test]
fn a_run_of_version_1_comes_to_the_same_in_version_2() {
    for job in [
        samples::worked(),
        samples::thinnest(),
        samples::percent_limits(),
        samples::weighing_limits(),
        samples::rebuilt_meter_no_letter(),
        samples::longest(),
    ] {
        assert_eq!(unlike_in_version_2(&job), []);
    }
}

#[test]
fn a_run_whose_factor_moved_comes_to_something_else_in_version_2() {
    assert_eq!(unlike_in_version_2(&samples::several_runs()), [2, 3]);
    assert_eq!(unlike_in_version_2(&samples::moved_factor()), [8, 9]);
}

/// Letters tell its instruments apart as the serials do those of version 1.
#[test]
fn the_longest_jobs_come_to_the_same() {
    let job = samples::longest_version_2();
    assert_eq!(job.bytes().len(), 17_273);
    assert_eq!(reduced(&job), reduced(&samples::longest()));
    assert_eq!(
        read(&without_letters(job).bytes()),
        Err(Refusal::new(Reason::Repeated, 9 + 4 * 17))
    );
}

fn without_letters(mut job: Job) -> Job {
    for instrument in job.instruments_mut() {
        instrument.letter = NO_LETTER;
    }
    job
}

/// Whether each run of the job stands, and its line 6.
fn verdicts(job: &Job) -> Vec<(bool, Option<i64>)> {
    let runs = job.runs.iter();
    runs.map(|run| work(None, job, run))
        .map(|worked| (worked.accepted(), worked.lines.line(6)))
        .collect()
}

#[test]
fn history_before_a_rebuild_does_not_count() {
    // 1764·39400·Y·301471/(10^9·5400) for Y 10,000, 10,020 and 9,800.
    let [first, second, rebuilt] = [38_801, 38_879, 38_025].map(Some);
    assert_eq!(
        verdicts(&samples::rebuilt_meter()),
        [(true, first), (false, None), (true, rebuilt)]
    );
    assert_eq!(
        verdicts(&samples::rebuilt_meter_no_letter()),
        [(true, first), (true, second), (true, rebuilt)]
    );
}
