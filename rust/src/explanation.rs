//! A finding explained: what its rule compares, and the certificate days that were used.

use crate::outputs::{CONDITION_LENGTH, DAY_LENGTH};

/// Why a run has a finding. The conditions are those of its rule that are broken: one,
/// of rules 8 and 9 one or both, of rules 1 to 4 none, which the days tell.
///
/// In words it is what [`explanation_text`](crate::explanation_text) gives.
#[derive(Clone, Debug, PartialEq, Eq)]
pub struct Explanation {
    pub conditions: Vec<Condition>,
    /// The meter's, then the pitot tube's, then the nozzle's, of each what is before
    /// the run first.
    pub days: Vec<CertificateDay>,
}

/// A broken condition: the left number stands to the right one in this way.
///
/// Rules 15 and 16 compare a quotient with its limit, and where the two are equal the
/// remainder with the remainder's limit. Of any other rule these two are 0.
#[derive(Clone, Copy, Debug, PartialEq, Eq)]
pub struct Condition {
    /// Which of the rule's: 1, or 2 for the second of rules 8 and 9.
    pub which: u8,
    pub way: Way,
    pub left: i64,
    pub right: i64,
    pub remainder: i64,
    pub remainder_limit: i64,
}

/// How the left number of a condition stands to the right one.
#[derive(Clone, Copy, Debug, PartialEq, Eq)]
pub enum Way {
    Below,
    Above,
    Equal,
    Differs,
}

/// The day of the certificate that is nearest to the run's day on a side of it, `None`
/// if there is none of the instrument that the run names.
#[derive(Clone, Copy, Debug, PartialEq, Eq)]
pub struct CertificateDay {
    pub kind: Kind,
    pub side: Side,
    pub day: Option<u16>,
}

/// What a certificate is for.
#[derive(Clone, Copy, Debug, PartialEq, Eq)]
pub enum Kind {
    Meter,
    Pitot,
    Nozzle,
}

/// On which side of the run a certificate is dated: on its day or earlier, or later.
#[derive(Clone, Copy, Debug, PartialEq, Eq)]
pub enum Side {
    Before,
    After,
}

impl Explanation {
    /// From the bytes that `explain` writes: how many conditions and how many days there
    /// are, and then these. Of bytes that end early it has what is complete.
    pub fn from_bytes(bytes: &[u8]) -> Self {
        let count = |index: usize| bytes.get(index).map_or(0, |&count| usize::from(count));
        let (conditions, days) = (count(0), count(1));
        let behind_counts = bytes.get(2..).unwrap_or_default();
        let behind_conditions = behind_counts.get(conditions * CONDITION_LENGTH..);
        Explanation {
            conditions: behind_counts
                .chunks_exact(CONDITION_LENGTH)
                .take(conditions)
                .map(|bytes| Condition::from_bytes(&std::array::from_fn(|k| bytes[k])))
                .collect(),
            days: behind_conditions
                .unwrap_or_default()
                .chunks_exact(DAY_LENGTH)
                .take(days)
                .map(|bytes| CertificateDay::from_bytes(&std::array::from_fn(|k| bytes[k])))
                .collect(),
        }
    }
}

impl Condition {
    /// From its 34 bytes: which it is; the way, 1 below, 2 above, 3 equal, 4 differs;
    /// left, right, remainder and the remainder's limit. Another way, which no call
    /// writes, is taken for differs.
    pub fn from_bytes(bytes: &[u8; CONDITION_LENGTH]) -> Self {
        let number =
            |index: usize| i64::from_le_bytes(std::array::from_fn(|k| bytes[2 + 8 * index + k]));
        Condition {
            which: bytes[0],
            way: match bytes[1] {
                1 => Way::Below,
                2 => Way::Above,
                3 => Way::Equal,
                _ => Way::Differs,
            },
            left: number(0),
            right: number(1),
            remainder: number(2),
            remainder_limit: number(3),
        }
    }
}

impl CertificateDay {
    /// From its 5 bytes: the kind, 1 meter, 2 pitot tube, 3 nozzle; the side, 1 before,
    /// 2 after; 1 if there is such a certificate; its day. Another kind or side, which no
    /// call writes, is taken for the last of its list, and where the third byte is not 1
    /// there is none.
    pub fn from_bytes(bytes: &[u8; DAY_LENGTH]) -> Self {
        let [kind, side, found, day @ ..] = *bytes;
        CertificateDay {
            kind: match kind {
                1 => Kind::Meter,
                2 => Kind::Pitot,
                _ => Kind::Nozzle,
            },
            side: match side {
                1 => Side::Before,
                _ => Side::After,
            },
            day: (found == 1).then(|| u16::from_le_bytes(day)),
        }
    }
}
