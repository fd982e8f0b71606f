//! Refusals 2 to 5: bytes that are changed, and the fields that they belong to.

use crate::versions::{in_either_version, in_version_2, Versioned};
use crate::{
    changed, refusal, told, with_number, LONGEST, REFUSED, SECOND_RUN, SEVERAL_RUNS, WORKED,
};

/// What is told of the worked job with one byte changed, each to 0 and to 255:
/// `BYTE VALUE: number at place, clause`, or `BYTE VALUE: read`.
const CHANGED: &str = include_str!("changed.txt");

#[test]
fn each_changed_byte_of_the_worked_job() {
    let mut lines = CHANGED.lines();
    for (place, &byte) in WORKED.iter().enumerate() {
        for value in [0, 255] {
            if value != byte {
                let told = told(&changed(WORKED, place, &[value]));
                let expected = lines.next();
                assert_eq!(Some(&*format!("{place} {value}: {told}")), expected);
            }
        }
    }
    assert_eq!(lines.next(), None);
}

/// What is told of the worked job in version 1, as it is told in version 2: the
/// same, at the field's own place there.
fn told_in_version_2(told: &str, job: &Versioned) -> String {
    match told.split_once(" at ") {
        Some((number, told)) => {
            let (place, clause) = told.split_once(", ").expect("a clause follows");
            let place = job.place(place.parse().expect("a place is a number"));
            format!("{number} at {place}, {clause}")
        }
        None => told.into(),
    }
}

#[test]
fn each_changed_byte_of_the_worked_job_in_version_2() {
    let job = in_version_2(WORKED);
    for line in CHANGED.lines() {
        let (change, told_before) = line.split_once(": ").expect("a colon follows");
        let (place, value) = change.split_once(' ').expect("a byte and its value");
        let place = job.place(place.parse().expect("a byte is a number"));
        let value = value.parse().expect("a value is a byte");
        // Where the version's high byte is changed, its low byte is 2 here.
        let told_before = told_before.replace("version is 65,281", "version is 65,282");
        let told = told(&changed(&job.bytes, place, &[value]));
        assert_eq!(told, told_in_version_2(&told_before, &job), "{line}");
    }
}

#[test]
fn every_value_of_every_byte_gets_a_clause_of_its_own() {
    for job in in_either_version(WORKED) {
        for place in 0..job.bytes.len() {
            for value in 0..=255 {
                let job = changed(&job.bytes, place, &[value]);
                if let Some(refusal) = refusal(&job) {
                    // A wrong mark and bytes left over have no more to be said of them.
                    let general = matches!(refusal.number, 2 | 8);
                    let clause = refusal.in_job(&job);
                    assert_eq!(clause == refusal.cause(), general, "{refusal}: {clause}");
                }
            }
        }
    }
}

#[test]
fn the_examples() {
    assert_eq!(
        told(REFUSED),
        "5 at 167, the stack temperature of point 3 of the 1st run is -401 and not in its range, \
         -400 to 20,000 in units of 0.1 F"
    );
    for job in [WORKED, SEVERAL_RUNS, LONGEST] {
        for job in in_either_version(job) {
            assert_eq!(told(&job.bytes), "read");
        }
    }
}

#[test]
fn fields_of_later_records() {
    for (place, number, refusal, clause) in [
        (
            19 + 16,
            8_999,
            5,
            "the factor Y of the 2nd certificate, a meter's, is 8,999 and not in its range, 9,000 \
             to 11,000 in units of 1/10,000",
        ),
        (
            SECOND_RUN + 29,
            1_001,
            5,
            "the carbon dioxide CO2 of the 2nd run is 1,001 and not in its range, 0 to 1,000 in \
             units of 0.1 percent",
        ),
        (
            SECOND_RUN + 60,
            0,
            4,
            "the number of points of the 2nd run is 0 and not in its range, 1 to 64",
        ),
        (
            1_651 + 6,
            -401i16 as u16,
            5,
            "the stack temperature of point 12 of the 8th run is -401 and not in its range, -400 \
             to 20,000 in units of 0.1 F",
        ),
        (
            1_651 + 8,
            -1_501i16 as u16,
            5,
            "the meter inlet temperature of point 12 of the 8th run is -1,501 and not in its \
             range, 0 to 1,500 in units of 0.1 F",
        ),
        (
            1_671,
            0,
            5,
            "the seconds of segment 3 of the 8th run are 0 and not in their range, 1 to 36,000 s",
        ),
        (
            1_881,
            3,
            5,
            "the kind of weighing 2 of the 9th run is 3 and not in its range, 1 filter, 2 rinse",
        ),
    ] {
        for job in in_either_version(SEVERAL_RUNS) {
            let place = job.place(place);
            let told = told(&with_number(&job.bytes, place, number));
            assert_eq!(told, format!("{refusal} at {place}, {clause}"));
        }
    }
}

#[test]
fn versions_that_there_are_not() {
    for job in in_either_version(WORKED) {
        for (version, shown) in [(0, "0"), (3, "3"), (258, "258"), (65_535, "65,535")] {
            assert_eq!(
                told(&with_number(&job.bytes, 3, version)),
                format!("3 at 3, the version is {shown} and not in its range, 1 or 2")
            );
        }
    }
}
