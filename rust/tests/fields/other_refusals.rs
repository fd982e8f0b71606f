//! Refusals 6 to 8, and those that are about no byte or were given for another job.

use leverbonnet::Refusal;

use crate::versions::in_either_version;
use crate::{changed, told, with_number, FIRST_RUN, SECOND_RUN, SEVERAL_RUNS, WORKED, WORKED_RUN};

#[test]
fn a_certificate_that_repeats_an_earlier_one() {
    // The third certificate is made the first again, the fourth the second.
    for (from, to, name) in [(9, 41, "3rd"), (25, 57, "4th"), (9, 25, "2nd")] {
        let job = changed(WORKED, to, &WORKED[from..from + 16]);
        let expected =
            format!("6 at {to}, the {name} certificate repeats kind, maker, serial and day of an earlier one");
        assert_eq!(told(&job), expected);
    }
}

#[test]
fn a_run_number_that_is_not_above_the_one_before() {
    for job in in_either_version(SEVERAL_RUNS) {
        let (first, second) = (job.place(FIRST_RUN), job.place(SECOND_RUN));
        for (before, number, shown) in [(999, 1, "1"), (999, 999, "999"), (1, 1, "1")] {
            let job = with_number(&job.bytes, first, before);
            let job = with_number(&job, second, number);
            let expected = format!(
                "6 at {second}, the number of the 2nd run, {shown}, is not above that of the run \
                 before, {before}"
            );
            assert_eq!(told(&job), expected);
        }
    }
}

#[test]
fn seconds_that_do_not_add_up() {
    let point = WORKED_RUN + 64;
    let segment = point + 8 * 12;
    for (place, seconds, clause) in [
        (
            segment,
            3_599,
            "the segments of the 1st run last 3,599 seconds and its points 3,600",
        ),
        (
            point,
            32_850,
            "the segments of the 1st run last 3,600 seconds and its points 36,000",
        ),
        (
            point,
            32_851,
            "the points of the 1st run last 36,001 seconds, over 36,000",
        ),
        (
            point,
            36_000,
            "the points of the 1st run last 39,150 seconds, over 36,000",
        ),
    ] {
        for job in in_either_version(WORKED) {
            let run = job.place(WORKED_RUN);
            let job = with_number(&job.bytes, job.place(place), seconds);
            assert_eq!(told(&job), format!("7 at {run}, {clause}"));
        }
    }
    let job = with_number(SEVERAL_RUNS, 477, 3_601);
    assert_eq!(
        told(&job),
        "7 at 317, the segments of the 2nd run last 3,601 seconds and its points 3,600"
    );
}

#[test]
fn the_other_refusals_say_their_cause() {
    for mut job in in_either_version(WORKED) {
        let length = job.bytes.len();
        job.bytes.push(0);
        let expected = format!("8 at {length}, bytes are left over behind the last run");
        assert_eq!(told(&job.bytes), expected);
    }
    for number in [0, 8, 9, 10, 11, 12, u32::MAX] {
        let refusal = Refusal { number, place: 0 };
        assert_eq!(refusal.in_job(WORKED), refusal.cause());
    }
}

/// For a job that is read, every refusal is another job's.
#[test]
fn a_refusal_of_another_job_says_its_cause() {
    // Ranges that speak of other fields, or of names, are not judged again.
    let believed = [104, 110, 116, 119, 237, 251];
    for job in in_either_version(WORKED) {
        let believed = believed.map(|place| job.place(place) as u32);
        for number in 1..=8 {
            for place in 0..=300 {
                let refusal = Refusal { number, place };
                if number != 5 || !believed.contains(&place) {
                    assert_eq!(refusal.in_job(&job.bytes), refusal.cause(), "{refusal}");
                }
            }
        }
    }
}
