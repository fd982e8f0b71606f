//! What the two factors of a run's meter come to: rule 5 by how far they are apart, and
//! the run in either version.

use independent::job::{Job, Version};
use independent::{work, Chosen};

use super::edges::Reduced;
use crate::versions::other;

impl Reduced<'_> {
    /// Once if rule 5 is broken with such a before factor and such a step from it to the
    /// after factor.
    pub fn moved(&self, such: fn(i64, i64) -> bool) -> usize {
        usize::from(self.breaks(5) && self.has_factors(such))
    }

    pub fn unmoved(&self, such: fn(i64, i64) -> bool) -> usize {
        usize::from(!self.breaks(5) && self.has_factors(such))
    }

    /// Once if the factor moved up in a run of that version that is such a one.
    pub fn moved_up(&self, version: Version, such: bool) -> usize {
        usize::from(such) * self.of_version(version) * self.moved(|_, step| step > 0)
    }

    pub fn moved_down(&self, version: Version, such: bool) -> usize {
        usize::from(such) * self.of_version(version) * self.moved(|_, step| step < 0)
    }

    /// Whether rule 5 is the only fault.
    pub fn void_by_factor_alone(&self) -> bool {
        self.faults == [5]
    }

    /// Whether rule 5 is one of several faults.
    pub fn void_by_factor_too(&self) -> bool {
        self.faults.contains(&5) && self.faults.len() > 1
    }

    /// Whether its lines would be others in the other version.
    pub fn changed_by_version(&self) -> bool {
        let in_other = Job {
            version: other(self.job.version),
            ..self.job.clone()
        };
        work(None, &in_other, self.run).lines.all()[..] != self.lines[..]
    }

    fn has_factors(&self, such: fn(i64, i64) -> bool) -> bool {
        let chosen = Chosen::for_run(self.run, &self.job.certificates);
        match (chosen.meter_before, chosen.meter_after) {
            (Some(before), Some(after)) => {
                let [before, after] = [before, after].map(|one| i64::from(one.values[0]));
                such(before, after - before)
            }
            _ => false,
        }
    }
}
