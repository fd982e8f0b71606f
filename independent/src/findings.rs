//! The findings of a run, by rule and then by place.

use crate::certificates::Chosen;
use crate::figure::Figure;
use crate::job::{Run, Version};
use crate::lines::Lines;
use crate::rules::{each_broken, Broken};

/// A fault makes the run void; a note informs and leaves it accepted.
#[derive(Clone, Copy, Debug, PartialEq, Eq)]
pub enum Class {
    Fault = 1,
    Note = 2,
}

#[derive(Clone, Copy, Debug, PartialEq, Eq)]
pub struct Finding {
    pub rule: u8,
    pub class: Class,
    pub place: u16,
}

impl Finding {
    /// What a broken rule is in jobs of that version.
    pub fn of(version: Version, broken: &Broken) -> Self {
        Finding {
            rule: broken.rule,
            class: class_of(version, broken.rule),
            place: broken.place,
        }
    }

    pub fn bytes(self) -> [u8; 4] {
        let [low, high] = self.place.to_le_bytes();
        [self.rule, self.class as u8, low, high]
    }
}

/// The class of a rule in jobs of that version.
fn class_of(version: Version, rule: u8) -> Class {
    match (version, rule) {
        (Version::One, 5) | (_, 11) => Class::Note,
        _ => Class::Fault,
    }
}

/// Everything found about the run, in list order.
pub fn of(
    version: Version,
    run: &Run,
    figure: Option<&Figure>,
    chosen: &Chosen,
    lines: &Lines,
) -> Vec<Finding> {
    let mut found = Vec::new();
    each_broken(run, figure, chosen, lines, |broken| {
        found.push(Finding::of(version, &broken));
    });
    found
}

#[cfg(test)]
mod tests {
    use super::*;

    #[test]
    fn rule_5_is_a_note_in_version_1_alone() {
        let notes = |version| {
            let mut rules: Vec<u8> = (1..=20).collect();
            rules.retain(|&rule| class_of(version, rule) == Class::Note);
            rules
        };
        assert_eq!(Version::ALL.map(notes), [vec![5, 11], vec![11]]);
    }
}
