//! The days of the certificates that a rule goes by.

use crate::certificates::{nearest, Side};
use crate::job::{Job, Kind, Run, Version};

/// A kind and a side of the run's day, and the day of the nearest certificate there;
/// none where there is no certificate.
pub struct CertificateDay {
    pub kind: Kind,
    pub side: Side,
    pub day: Option<u16>,
}

const METER_BEFORE: (Kind, Side) = (Kind::Meter, Side::Before);
const METER_AFTER: (Kind, Side) = (Kind::Meter, Side::After);
const PITOT_BEFORE: (Kind, Side) = (Kind::Pitot, Side::Before);
const PITOT_AFTER: (Kind, Side) = (Kind::Pitot, Side::After);
const NOZZLE_BEFORE: (Kind, Side) = (Kind::Nozzle, Side::Before);
const NOZZLE_AFTER: (Kind, Side) = (Kind::Nozzle, Side::After);

/// In a job of version 1 the velocity, too, hangs on the meter's after factor.
fn sought(version: Version, rule: u8) -> &'static [(Kind, Side)] {
    match (version, rule) {
        (_, 1 | 4 | 5) => &[METER_BEFORE, METER_AFTER],
        (_, 2) => &[PITOT_BEFORE, PITOT_AFTER],
        (_, 3) => &[NOZZLE_BEFORE, NOZZLE_AFTER],
        (_, 6) => &[NOZZLE_BEFORE],
        (Version::One, 14) => &[METER_BEFORE, METER_AFTER, PITOT_BEFORE],
        (Version::Two, 14) => &[METER_BEFORE, PITOT_BEFORE],
        (Version::One, 15 | 16) => &[METER_BEFORE, METER_AFTER, PITOT_BEFORE, NOZZLE_BEFORE],
        (Version::Two, 15 | 16) => &[METER_BEFORE, PITOT_BEFORE, NOZZLE_BEFORE],
        _ => &[],
    }
}

/// Those of the run's own instruments, in the order in which they are told.
pub fn used(job: &Job, run: &Run, rule: u8) -> Vec<CertificateDay> {
    let sought = sought(job.version, rule).iter();
    sought
        .map(|&(kind, side)| {
            let certificate = nearest(run, &job.certificates, kind, side);
            CertificateDay {
                kind,
                side,
                day: certificate.map(|certificate| certificate.day),
            }
        })
        .collect()
}
