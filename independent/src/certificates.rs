//! Choosing the certificates that count for a run.

use crate::condition::Condition;
use crate::job::{Certificate, Kind, Run, Version};

/// Of a run's day: on it or earlier, or later. The discriminants are the numbers of the
/// sides.
#[derive(Clone, Copy, Debug, PartialEq, Eq)]
pub enum Side {
    Before = 1,
    After = 2,
}

/// A run's certificates; `None` where the job holds none so dated.
pub struct Chosen<'a> {
    pub meter_before: Option<&'a Certificate>,
    pub meter_after: Option<&'a Certificate>,
    pub pitot: Option<&'a Certificate>,
    pub nozzle: Option<&'a Certificate>,
}

impl<'a> Chosen<'a> {
    pub fn for_run(run: &Run, certificates: &'a [Certificate]) -> Self {
        let nearest = |kind, side| nearest(run, certificates, kind, side);
        Chosen {
            meter_before: nearest(Kind::Meter, Side::Before),
            meter_after: nearest(Kind::Meter, Side::After),
            pitot: nearest(Kind::Pitot, Side::Before),
            nozzle: nearest(Kind::Nozzle, Side::Before),
        }
    }

    /// Broken where the after factor lies more than 5 percent of the before factor away
    /// from it; none where one of the two is not known.
    pub fn factors_apart(&self) -> Option<Condition> {
        let [before, after] =
            [self.meter_before?, self.meter_after?].map(|one| i64::from(one.values[0]));
        Some(Condition::above(
            20 * (before - after).abs(),
            before,
            "20 x the difference of the meter's factors; \
             its factor before the run (factors in 0.0001)",
        ))
    }

    pub fn factor_moved(&self) -> bool {
        self.factors_apart()
            .map_or(false, |apart| apart.is_broken())
    }

    /// Y in 1/10,000, known whenever the before certificate is there. In version 1
    /// an after factor that moved counts where it is the lower, in version 2 never.
    pub fn factor(&self, version: Version) -> Option<u16> {
        let before = self.meter_before?.values[0];
        match (version, self.meter_after) {
            (Version::One, Some(after)) if self.factor_moved() => Some(before.min(after.values[0])),
            _ => Some(before),
        }
    }

    /// Cp in 1/1,000.
    pub fn coefficient(&self) -> Option<u16> {
        self.pitot.map(|pitot| pitot.values[0])
    }

    /// The nozzle's three diameters in 0.001 in.
    pub fn nozzle_diameters(&self) -> Option<[u16; 3]> {
        self.nozzle.map(|nozzle| nozzle.values)
    }
}

/// The certificate of the run's instrument of that kind that is dated nearest its day on
/// that side.
pub fn nearest<'a>(
    run: &Run,
    certificates: &'a [Certificate],
    kind: Kind,
    side: Side,
) -> Option<&'a Certificate> {
    let instrument = run.instrument(kind);
    let belonging = certificates
        .iter()
        .filter(|certificate| certificate.kind == kind && certificate.instrument == instrument);
    match side {
        Side::Before => belonging
            .filter(|certificate| certificate.day <= run.day)
            .max_by_key(|certificate| certificate.day),
        Side::After => belonging
            .filter(|certificate| certificate.day > run.day)
            .min_by_key(|certificate| certificate.day),
    }
}

#[cfg(test)]
mod tests {
    use super::*;
    use crate::samples;

    /// Whether the factor moved from 10,000 to this one, and Y in either version.
    fn moved(after: u16) -> (bool, [Option<u16>; 2]) {
        let mut job = samples::worked();
        job.certificates[1].values[0] = after;
        let chosen = Chosen::for_run(&job.runs[0], &job.certificates);
        let factors = Version::ALL.map(|version| chosen.factor(version));
        (chosen.factor_moved(), factors)
    }

    #[test]
    fn the_after_factor_counts_in_version_1_where_it_moved_down() {
        let before = [Some(10_000); 2];
        assert_eq!(moved(10_500), (false, before));
        assert_eq!(moved(10_501), (true, before));
        assert_eq!(moved(9_500), (false, before));
        assert_eq!(moved(9_499), (true, [Some(9_499), Some(10_000)]));
    }

    #[test]
    fn one_certificate_moves_no_factor() {
        let job = samples::moved_factor();
        let run = &job.runs[2];
        let factors = |certificates: &[Certificate]| {
            let chosen = Chosen::for_run(run, certificates);
            assert!(!chosen.factor_moved());
            Version::ALL.map(|version| chosen.factor(version))
        };
        assert_eq!(factors(&job.certificates[4..5]), [Some(10_000); 2]);
        assert_eq!(factors(&job.certificates[5..6]), [None; 2]);
    }
}
