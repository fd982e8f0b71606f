//! What a factor that moved comes to in either version.

use independent::job::Job;
use independent::{samples, sheet, work};

/// The sheet but for its lines other than 6, which is the first that goes by Y.
fn told(job: &Job) -> Vec<String> {
    let text = String::from_utf8(sheet(&job.bytes())).unwrap();
    let told = ["RUN ", "6 ", "FAULT ", "NOTE "];
    text.lines()
        .filter(|line| told.iter().any(|start| line.starts_with(start)))
        .map(String::from)
        .collect()
}

#[test]
fn in_version_1_it_is_a_note_and_the_lower_factor_counts() {
    let job = samples::moved_factor();
    assert_eq!(
        told(&job),
        [
            "RUN 7 ACCEPTED",
            "6 38801",
            "NOTE 11 1",
            "RUN 8 ACCEPTED",
            "6 38801",
            "NOTE 5 0",
            "NOTE 11 1",
            "RUN 9 ACCEPTED",
            "6 36857",
            "NOTE 5 0",
            "NOTE 11 1",
        ]
    );
    let [steady, risen, fallen] = [0, 1, 2].map(|k| work(None, &job, &job.runs[k]).lines);
    assert_eq!(risen, steady);
    let changed: Vec<usize> = (1..=20)
        .filter(|&line| fallen.line(line) != steady.line(line))
        .collect();
    assert_eq!(changed, [6, 8, 10, 14, 15, 17, 18, 20]);
}

#[test]
fn in_version_2_it_is_a_fault_and_the_before_factor_counts() {
    let job = samples::moved_factor_version_2();
    assert_eq!(
        told(&job),
        [
            "RUN 7 ACCEPTED",
            "6 38801",
            "NOTE 11 1",
            "RUN 8 VOID",
            "6 38801",
            "FAULT 5 0",
            "NOTE 11 1",
            "RUN 9 VOID",
            "6 38801",
            "FAULT 5 0",
            "NOTE 11 1",
        ]
    );
    let [steady, risen, fallen] = [0, 1, 2].map(|k| work(None, &job, &job.runs[k]).lines);
    assert_eq!([risen, fallen], [steady.clone(), steady]);
}
