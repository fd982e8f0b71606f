//! Certificates that are missing: with one dated on the other side of the run's day, and
//! with none.

use independent::job::{Certificate, Job};
use independent::samples;

pub fn jobs() -> Vec<(&'static str, Job)> {
    let days = |meter: [Option<u16>; 2], pitot, nozzle| dated([meter[0], meter[1], pitot, nozzle]);
    let [before, on, after] = [8_990, 9_000, 9_020].map(Some);
    let [first, last] = [0, u16::MAX].map(Some);
    vec![
        ("job without certificates", dated([None; 4])),
        (
            "meter certified later alone",
            days([None, after], before, before),
        ),
        (
            "meter certified before alone",
            days([before, None], before, before),
        ),
        (
            "meter certified on the run's day alone",
            days([on, None], on, on),
        ),
        (
            "pitot and nozzle certified later alone",
            days([before, after], after, after),
        ),
        (
            "certificates of the first day and of the last",
            days([first, last], last, first),
        ),
        (
            "meter certified on the first day alone",
            days([first, None], first, last),
        ),
    ]
}

/// The worked job with its certificates of these days, or without them.
fn dated(days: [Option<u16>; 4]) -> Job {
    let mut job = samples::worked();
    let certificates = job.certificates.iter().zip(days);
    job.certificates = certificates
        .filter_map(|(&one, day)| day.map(|day| Certificate { day, ..one }))
        .collect();
    job
}
