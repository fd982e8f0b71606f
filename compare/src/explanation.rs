//! An explanation as the bytes tell it, and whether it explains anything; and the places
//! that a rule has in a run.

use std::cmp::Ordering;

use independent::job::Run;

const COUNTS_LENGTH: usize = 2;
const CONDITION_LENGTH: usize = 34;
const DAY_LENGTH: usize = 5;

/// How many points, segments or weighings the rule is about; none for one about the whole
/// run.
pub fn places(run: &Run, rule: u16) -> Option<u16> {
    let records = match rule {
        10 => run.points.len(),
        11 => run.segments.len(),
        17 => run.weighings.len(),
        _ => return None,
    };
    Some(records as u16)
}

pub struct Explanation {
    pub conditions: Vec<Condition>,
    pub days: Vec<CertificateDay>,
}

pub struct Condition {
    /// Which of the rule's.
    pub which: u8,
    way: u8,
    pub left: i64,
    pub right: i64,
    pub remainder: i64,
    limit: i64,
}

pub struct CertificateDay {
    kind: u8,
    side: u8,
    /// None where there is no certificate.
    pub day: Option<u16>,
}

impl Explanation {
    /// From an output that it was written to, and that may be longer.
    pub fn read(output: &[u8]) -> Self {
        let (counts, rest) = output.split_at(COUNTS_LENGTH);
        let [conditions, days] = [counts[0], counts[1]].map(usize::from);
        let (first, rest) = rest.split_at(CONDITION_LENGTH * conditions);
        Explanation {
            conditions: first.chunks(CONDITION_LENGTH).map(condition).collect(),
            days: rest.chunks(DAY_LENGTH).take(days).map(day).collect(),
        }
    }

    /// Why it cannot be right, whoever gave it.
    pub fn trouble(&self) -> Option<&'static str> {
        let which = self.conditions.iter().map(|one| one.which);
        let sides = self.days.iter().map(|one| (one.kind, one.side));
        match (&self.conditions[..], &self.days[..]) {
            ([], []) => Some("nothing is told"),
            _ if !is_rising(which) => Some("conditions are out of order"),
            _ if !is_rising(sides) => Some("certificate days are out of order"),
            (conditions, _) if !conditions.iter().all(Condition::is_broken) => {
                Some("a condition is told that is not broken")
            }
            _ => None,
        }
    }
}

fn is_rising<T: PartialOrd>(told: impl Iterator<Item = T>) -> bool {
    let told: Vec<T> = told.collect();
    told.windows(2).all(|two| two[0] < two[1])
}

fn condition(bytes: &[u8]) -> Condition {
    let number = |at: usize| i64::from_le_bytes(std::array::from_fn(|i| bytes[at + i]));
    Condition {
        which: bytes[0],
        way: bytes[1],
        left: number(2),
        right: number(10),
        remainder: number(18),
        limit: number(26),
    }
}

fn day(bytes: &[u8]) -> CertificateDay {
    let day = u16::from_le_bytes([bytes[3], bytes[4]]);
    CertificateDay {
        kind: bytes[0],
        side: bytes[1],
        day: (bytes[2] == 1).then_some(day),
    }
}

impl Condition {
    /// As a reader judges it: by the remainder only where left and right are equal.
    fn is_broken(&self) -> bool {
        let stands = (self.left, self.remainder).cmp(&(self.right, self.limit));
        match self.way {
            1 => stands == Ordering::Less,
            2 => stands == Ordering::Greater,
            3 => stands == Ordering::Equal,
            4 => stands != Ordering::Equal,
            _ => false,
        }
    }
}

#[cfg(test)]
mod tests {
    use super::*;

    /// The explanation with these numbers of conditions, each below by 1 or not at all, and
    /// these kinds and sides.
    fn made(conditions: &[(u8, bool)], days: &[(u8, u8)]) -> Explanation {
        let condition = |&(which, is_broken): &(u8, bool)| Condition {
            which,
            way: 1,
            left: i64::from(!is_broken),
            right: 1,
            remainder: 0,
            limit: 0,
        };
        let day = |&(kind, side): &(u8, u8)| CertificateDay {
            kind,
            side,
            day: None,
        };
        Explanation {
            conditions: conditions.iter().map(condition).collect(),
            days: days.iter().map(day).collect(),
        }
    }

    #[test]
    fn an_explanation_that_cannot_be_right_is_told_from_one_that_can() {
        let trouble = |conditions: &[_], days: &[_]| made(conditions, days).trouble();
        assert_eq!(trouble(&[], &[]), Some("nothing is told"));
        assert_eq!(trouble(&[], &[(1, 1), (1, 2), (2, 1)]), None);
        assert_eq!(trouble(&[(1, true), (2, true)], &[]), None);
        let not_broken = Some("a condition is told that is not broken");
        assert_eq!(trouble(&[(1, true), (2, false)], &[]), not_broken);
        let disordered = Some("conditions are out of order");
        assert_eq!(trouble(&[(2, true), (1, true)], &[]), disordered);
        let disordered = Some("certificate days are out of order");
        assert_eq!(trouble(&[], &[(1, 2), (1, 1)]), disordered);
        assert_eq!(trouble(&[], &[(2, 1), (1, 2)]), disordered);
    }

    #[test]
    fn a_remainder_counts_only_at_the_limit() {
        let is_broken = |way, left, remainder| {
            let condition = Condition {
                which: 1,
                way,
                left,
                right: 11_000,
                remainder,
                limit: 0,
            };
            condition.is_broken()
        };
        assert!(is_broken(2, 11_000, 1) && is_broken(2, 11_001, 0));
        assert!(!is_broken(2, 11_000, 0) && !is_broken(2, 10_999, 1));
        assert!(is_broken(1, 10_999, 1) && !is_broken(1, 11_000, 0));
        assert!(is_broken(3, 11_000, 0) && !is_broken(3, 11_000, 1));
        assert!(is_broken(4, 11_000, 1) && !is_broken(4, 11_000, 0));
        assert!(!is_broken(0, 1, 0) && !is_broken(5, 1, 0));
    }
}
