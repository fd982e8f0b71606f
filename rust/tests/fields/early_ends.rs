//! Refusal 1: a job that ends early.

use std::ops::Range;

use crate::versions::{in_either_version, in_version_2};
use crate::{told, LONGEST, SECOND_RUN, SEVERAL_RUNS, WORKED};

fn assert_ends_early(job: &[u8], lengths: Range<usize>, what: &str) {
    for length in lengths {
        let expected = format!("1 at {length}, the file ends before {what} complete");
        assert_eq!(told(&job[..length]), expected);
    }
}

#[test]
fn every_truncation_of_the_worked_job() {
    for job in in_either_version(WORKED) {
        let own_part = format!("the 1st run's {} bytes are", job.run);
        let mut start = 0;
        for (length, what) in [
            (9, "the header is"),
            (job.certificate, "the 1st certificate is"),
            (job.certificate, "the 2nd certificate is"),
            (job.certificate, "the 3rd certificate is"),
            (job.certificate, "the 4th certificate is"),
            (job.run, &own_part),
            (12, "point 1 of the 1st run is"),
            (12, "point 2 of the 1st run is"),
            (12, "point 3 of the 1st run is"),
            (12, "point 4 of the 1st run is"),
            (12, "point 5 of the 1st run is"),
            (12, "point 6 of the 1st run is"),
            (12, "point 7 of the 1st run is"),
            (12, "point 8 of the 1st run is"),
            (4, "segment 1 of the 1st run is"),
            (14, "weighing 1 of the 1st run is"),
            (14, "weighing 2 of the 1st run is"),
        ] {
            assert_ends_early(&job.bytes, start..start + length, what);
            start += length;
        }
        assert_eq!(start, job.bytes.len());
    }
}

#[test]
fn jobs_that_end_early_in_a_later_run() {
    for job in in_either_version(SEVERAL_RUNS) {
        for (lengths, what) in [
            (
                SECOND_RUN..381,
                format!("the 2nd run's {} bytes are", job.run),
            ),
            (429..441, "point 5 of the 2nd run is".into()),
            (477..481, "segment 1 of the 2nd run is".into()),
            (481..495, "weighing 1 of the 2nd run is".into()),
            (509..573, format!("the 3rd run's {} bytes are", job.run)),
            (1651..1663, "point 12 of the 8th run is".into()),
            (1671..1675, "segment 3 of the 8th run is".into()),
            (1881..1895, "weighing 2 of the 9th run is".into()),
        ] {
            let lengths = job.place(lengths.start)..job.place(lengths.end);
            assert_ends_early(&job.bytes, lengths, &what);
        }
    }
    assert_ends_early(LONGEST, 169..185, "the 11th certificate is");
    assert_ends_early(LONGEST, 17_147..17_161, "weighing 8 of the 16th run is");
    let longest = in_version_2(LONGEST).bytes;
    assert_ends_early(&longest, 179..196, "the 11th certificate is");
    assert_ends_early(&longest, 17_259..17_273, "weighing 8 of the 16th run is");
}
