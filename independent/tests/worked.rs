//! The job the rules print, through every call and in either version.

use independent::job::{Job, Version};
use independent::{reduce, run_count, run_number, samples, sheet, ACCEPTED};

const PRINTED: &str = "\
RUN 7 ACCEPTED
1 3600
2 40000
3 39400
4 301471
5 5400
6 38801
7 4707
8 10819
9 30160
10 28844
11 299500
12 6600
13 70711
14 8741
15 44386
16 34089
17 90604
18 9980
19 1056
20 4199
NOTE 11 1
";

fn worked_in(version: Version) -> Vec<u8> {
    let job = Job {
        version,
        ..samples::worked()
    };
    job.bytes()
}

#[test]
fn has_its_length() {
    assert_eq!(
        Version::ALL.map(|version| worked_in(version).len()),
        [265, 272]
    );
}

#[test]
fn prints_the_whole_output() {
    for version in Version::ALL {
        let text = sheet(&worked_in(version));
        assert_eq!(String::from_utf8(text).unwrap(), PRINTED);
    }
}

#[test]
fn counts_and_names_its_run() {
    for version in Version::ALL {
        let job = worked_in(version);
        assert_eq!(run_count(&job), 1);
        assert_eq!(run_number(&job, 0), 7);
        assert_eq!(run_number(&job, 1), 10 << 32);
    }
}

#[test]
fn fills_both_outputs_and_nothing_beyond() {
    for version in Version::ALL {
        fills_both_outputs(&worked_in(version));
    }
}

fn fills_both_outputs(job: &[u8]) {
    let mut lines = [0xA5; 190];
    let mut findings = [0x5A; 10];
    let answer = reduce(job, 7, &mut lines, &mut findings);
    assert_eq!(answer, u64::from(ACCEPTED) + 1);

    let printed = PRINTED.lines().skip(1).take(20);
    for (bytes, text) in lines.chunks(9).zip(printed) {
        let (_, value) = text.split_once(' ').unwrap();
        assert_eq!(bytes[0], 1);
        assert_eq!(bytes[1..], value.parse::<i64>().unwrap().to_le_bytes());
    }
    assert_eq!(lines[180..], [0xA5; 10]);
    assert_eq!(findings, [11, 2, 1, 0, 0x5A, 0x5A, 0x5A, 0x5A, 0x5A, 0x5A]);
}

#[test]
fn an_absent_line_is_nine_zero_bytes() {
    let mut job = samples::worked();
    job.certificates.retain(|one| one.values != [250, 250, 250]);
    let mut lines = [0xFF; 180];
    let mut findings = [0; 420];
    let answer = reduce(&job.bytes(), 7, &mut lines, &mut findings);
    // Fault 3 for the nozzle and the leak's note: void.
    assert_eq!(answer, 2);
    assert_eq!(lines[15 * 9..16 * 9], [0; 9]);
    assert_eq!(findings[..8], [3, 1, 0, 0, 11, 2, 1, 0]);
}

#[test]
fn the_longest_jobs_are_read() {
    for (job, length) in [
        (samples::longest(), 17_161),
        (samples::longest_version_2(), 17_273),
    ] {
        let job = job.bytes();
        assert_eq!(job.len(), length);
        assert_eq!(run_count(&job), 16);
    }
}

#[test]
fn several_runs_hold_accepted_and_void_ones() {
    let text = String::from_utf8(sheet(&samples::several_runs().bytes())).unwrap();
    let verdicts: Vec<&str> = text
        .lines()
        .filter(|line| line.starts_with("RUN"))
        .collect();
    assert_eq!(
        verdicts,
        [
            "RUN 1 ACCEPTED",
            "RUN 2 ACCEPTED",
            "RUN 3 VOID",
            "RUN 10 VOID",
            "RUN 11 VOID",
            "RUN 12 VOID",
            "RUN 13 VOID",
            "RUN 20 VOID",
            "RUN 999 VOID",
        ]
    );
}
