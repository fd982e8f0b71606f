//! What letters come to: certificates that a run would have been given without them,
//! and files that are refused for one.

use independent::job::{Instrument, Kind};
use independent::{read, Reason, Refusal};

use super::edges::{Reduced, Refused};

impl Reduced<'_> {
    /// Once if a certificate of that rule is nearer than the chosen one, but for its
    /// letter.
    pub fn passed_over(&self, rule: u8) -> usize {
        let days = [self.days_off(rule, true), self.days_off(rule, false)];
        usize::from(matches!(days, [Some(own), Some(other)] if other < own))
    }

    /// Once if the rule is broken that a certificate with another letter would have kept.
    pub fn broken_for_letter(&self, rule: u8) -> usize {
        usize::from(self.breaks(rule) && self.days_off(rule, false).is_some())
    }

    /// How many chosen certificates differ from another by the letter alone.
    pub fn told_apart_by_letter(&self) -> usize {
        let chosen = (1..=4).filter(|&rule| {
            let own = self.days_off(rule, true);
            own.is_some() && own == self.days_off(rule, false)
        });
        chosen.count()
    }

    /// How many days lie between the run and the nearest certificate with its letter, or
    /// with another, that keeps one of the rules 1 to 4.
    fn days_off(&self, rule: u8, own_letter: bool) -> Option<i64> {
        let (kind, instrument) = self.sought(rule);
        let found = self.job.certificates.iter().filter(|certificate| {
            let Instrument {
                maker,
                serial,
                letter,
            } = certificate.instrument;
            certificate.kind == kind
                && (maker, serial) == (instrument.maker, instrument.serial)
                && (letter == instrument.letter) == own_letter
        });
        let days = found.map(|one| i64::from(self.run.day) - i64::from(one.day));
        match rule {
            4 => days.map(|day| -day).filter(|&day| day > 0).min(),
            _ => days.filter(|&day| day >= 0).min(),
        }
    }

    /// What the certificate must be of that keeps one of the rules 1 to 4.
    fn sought(&self, rule: u8) -> (Kind, Instrument) {
        match rule {
            2 => (Kind::Pitot, self.run.pitot),
            3 => (Kind::Nozzle, self.run.nozzle),
            _ => (Kind::Meter, self.run.meter),
        }
    }
}

impl Refused<'_> {
    /// Once if it is refused with 5 at a letter: no other field takes 0, A and Z, and
    /// nothing beside them.
    pub fn for_letter(&self) -> usize {
        let takes = |byte: &u8| self.takes(*byte);
        usize::from(
            self.number == 5
                && [0, b'A', b'Z'].iter().all(takes)
                && ![1, b'@', b'['].iter().any(takes),
        )
    }

    /// Whether the field that it is refused for would do with that byte.
    fn takes(&self, byte: u8) -> bool {
        let mut job = self.job.to_vec();
        job[self.place] = byte;
        let refused = Refusal::new(Reason::FieldOutOfRange, self.place);
        read(&job).err() != Some(refused)
    }
}
