//! The text of a job written into a lent output.

use independent::{samples, sheet, sheet_text};

const UNTOUCHED: u8 = 0xA5;

/// The answer, and the output of that length afterwards.
fn written(job: &[u8], out_len: usize) -> (u64, Vec<u8>) {
    let mut out = vec![UNTOUCHED; out_len];
    (sheet_text(job, &mut out), out)
}

#[test]
fn an_output_of_the_exact_length_is_filled() {
    for job in [
        samples::worked(),
        samples::several_runs(),
        samples::rebuilt_meter(),
        samples::moved_factor(),
        samples::moved_factor_version_2(),
        samples::longest(),
        samples::longest_version_2(),
    ] {
        let job = job.bytes();
        let text = sheet(&job);
        assert_eq!(written(&job, text.len()), (text.len() as u64, text));
    }
}

#[test]
fn bytes_beyond_the_text_stay_as_they_were() {
    let job = samples::worked().bytes();
    let text = sheet(&job);
    let (answer, out) = written(&job, text.len() + 3);
    assert_eq!(answer, text.len() as u64);
    assert_eq!(out, [&text[..], &[UNTOUCHED; 3]].concat());
}

#[test]
fn a_shorter_output_is_refused_and_untouched() {
    let job = samples::worked().bytes();
    for out_len in 0..sheet(&job).len() {
        assert_eq!(written(&job, out_len), (9 << 32, vec![UNTOUCHED; out_len]));
    }
}

#[test]
fn a_refused_job_is_refused_as_it_is_read_and_writes_nothing() {
    let job = samples::refused().bytes();
    for out_len in [0, 1_000] {
        let refused = (5 << 32 | 167, vec![UNTOUCHED; out_len]);
        assert_eq!(written(&job, out_len), refused);
    }
}
