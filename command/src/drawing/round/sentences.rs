//! What the caption of a round stack says.

use super::groups::{coinciding, Group};
use super::{section, Layout};
use crate::drawing::inches::{of_tenths, of_thousandths};

pub fn title(layout: &Layout) -> String {
    let diameter = of_tenths(layout.diameter);
    let nozzle = of_thousandths(layout.nozzle.into());
    let points = layout.distances.len();
    format!(
        "Round stack, diameter {diameter}, nozzle {nozzle}, {points} points on each of 2 diameters"
    )
}

/// The groups are those that have one mark each in the cross-section.
pub fn sentences(layout: &Layout, groups: &[Group]) -> Vec<String> {
    let mut sentences = vec![
        "Distances are in inches from the zero wall, which is the inside of the wall at the port."
            .into(),
        margin(layout),
    ];
    sentences.extend(coincidence(layout.distances));
    sentences.extend(joint_marks(layout.distances, groups));
    sentences
}

fn margin(layout: &Layout) -> String {
    let margin = of_thousandths(layout.margin());
    if section::shows_margin(layout) {
        format!(
            "The dashed circle is the nearest to the wall that a point may stand, {margin} from it."
        )
    } else {
        format!(
            "The nearest to the wall that a point may stand is {margin}: too near to be drawn here."
        )
    }
}

/// Which points have equal distances. Only the margin makes them equal.
fn coincidence(distances: &[u32]) -> Option<String> {
    let groups = coinciding(distances);
    let (first, others) = groups.split_first()?;
    let clause = |group: &Group, wall: &str| {
        let distance = of_thousandths(group.of(distances)[0]);
        format!("{} coincide, {distance} from {wall}", group.named())
    };
    let mut sentence = capitalized(&clause(first, "the zero wall"));
    for group in others {
        sentence += "; ";
        sentence += &clause(group, "it");
    }
    Some(sentence + ": the margin keeps them there.")
}

/// Which points share a mark though their distances differ.
fn joint_marks(distances: &[u32], groups: &[Group]) -> Option<String> {
    let differ = |group: &&Group| {
        let distances = group.of(distances);
        distances.first() != distances.last()
    };
    let mut joint = groups.iter().filter(differ);
    let first = joint.next()?;
    let mut sentence = capitalized(&first.named());
    sentence += " are drawn as one mark in the cross-section";
    for group in joint {
        sentence += ", and so are ";
        sentence += &group.named();
    }
    Some(sentence + ".")
}

fn capitalized(words: &str) -> String {
    let (first, rest) = words.split_at(1);
    first.to_ascii_uppercase() + rest
}

#[cfg(test)]
mod tests {
    use super::*;
    use crate::drawing::round::groups::groups;

    #[test]
    fn points_at_the_margin_are_said_to_coincide() {
        assert_eq!(coincidence(&[1_000, 2_000, 10_000, 11_000]), None);
        assert_eq!(
            coincidence(&[1_000, 1_000, 1_000, 11_000, 11_000, 11_000]).unwrap(),
            "Points 1 to 3 coincide, 1.000 in from the zero wall; points 4 to 6 coincide, \
             11.000 in from it: the margin keeps them there."
        );
        assert_eq!(
            coincidence(&[1_000, 1_000, 1_001, 10_999, 11_000, 11_000]).unwrap(),
            "Points 1 and 2 coincide, 1.000 in from the zero wall; points 5 and 6 coincide, \
             11.000 in from it: the margin keeps them there."
        );
    }

    #[test]
    fn points_with_one_mark_are_named_unless_all_coincide() {
        let named = |distances: &[u32]| joint_marks(distances, &groups(distances, 10.0));
        assert_eq!(named(&[1_000, 2_000, 10_000, 11_000]), None);
        assert_eq!(named(&[1_000, 1_000, 11_000, 11_000]), None);
        assert_eq!(
            named(&[1_000, 1_000, 1_001, 10_999, 11_000, 11_000]).unwrap(),
            "Points 1 to 3 are drawn as one mark in the cross-section, and so are points 4 to 6."
        );
        assert_eq!(
            named(&[1_000, 1_001, 10_999, 11_999]).unwrap(),
            "Points 1 and 2 are drawn as one mark in the cross-section."
        );
    }
}
