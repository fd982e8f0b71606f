//! The marks of the points on a diameter of the cross-section, and their
//! numbers beside it, on both sides in turn.

use super::diameter::{Diameter, Name, RADIUS};
use super::groups::{groups, Group};
use super::Layout;
use crate::drawing::page::{line, Pen, Shape, DOT};
use crate::drawing::spread::{spread, Label};
use crate::drawing::text::Text;

/// Marks have at least this much between their middles.
const APART: f64 = 2.0 * DOT + 1.0;

/// The size of the numbers.
const NUMBER: f64 = 8.0;
/// From the diameter to the near edges of the numbers, in the near row and in
/// the far one.
const NEAR: f64 = 9.0;
const FAR: f64 = 18.0;
/// Beside a number on all sides.
const GAP: f64 = 1.7;

/// Units on the page for 0.001 in.
pub fn scale(layout: &Layout) -> f64 {
    2.0 * RADIUS / f64::from(layout.across())
}

/// The points in the groups that have one mark each.
pub fn joined(layout: &Layout) -> Vec<Group> {
    groups(layout.distances, APART / scale(layout))
}

/// The marks of groups of points, and their numbers.
pub fn shapes(layout: &Layout, groups: &[Group], diameter: Diameter) -> Vec<Shape> {
    let mark = |group: &Group| Mark::of(*group, layout);
    let marks: Vec<Mark> = groups.iter().map(mark).collect();
    let dot = |mark: &Mark| Shape::Dot(diameter.place(mark.along, 0.0));
    let mut shapes: Vec<Shape> = marks.iter().map(dot).collect();
    let dashed = RADIUS - f64::from(layout.margin()) * scale(layout);
    for (side, turn) in [(-1.0, 0), (1.0, 1)] {
        let row = |beside| Row {
            diameter,
            side,
            beside,
            dashed,
        };
        let on_side = marks.iter().skip(turn).step_by(2);
        let (far, near) = on_side.partition(|mark| has_far_row(mark, diameter));
        shapes.extend(row(NEAR).numbers(near));
        shapes.extend(row(FAR).numbers(far));
    }
    shapes
}

/// Along A joint numbers are so long that they would push their neighbors away
/// from their marks.
fn has_far_row(mark: &Mark, diameter: Diameter) -> bool {
    matches!(diameter.name, Name::A) && mark.joint
}

struct Mark {
    /// Units from the zero wall.
    along: f64,
    numbers: String,
    /// Of more than one point.
    joint: bool,
}

impl Mark {
    /// In the middle of its points.
    fn of(group: Group, layout: &Layout) -> Mark {
        let distances = group.of(layout.distances);
        let sum = distances[0] + distances[distances.len() - 1];
        Mark {
            along: f64::from(sum) / 2.0 * scale(layout),
            numbers: group.numbers(),
            joint: !group.is_single(),
        }
    }

    fn text(&self) -> Text {
        Text::new(self.numbers.clone(), NUMBER).bold()
    }
}

/// Numbers at one distance from a diameter, on one side of it.
struct Row {
    diameter: Diameter,
    /// 1 below A and to the right of B, -1 on the other side.
    side: f64,
    /// From the diameter to the near edges of the numbers.
    beside: f64,
    /// The radius of the dashed circle, which the numbers stay inside of.
    dashed: f64,
}

impl Row {
    fn numbers(&self, marks: Vec<&Mark>) -> Vec<Shape> {
        let places = self.places(&marks);
        let labeled = marks.iter().zip(places);
        labeled
            .flat_map(|(mark, place)| self.number(mark, place))
            .collect()
    }

    /// How far along the diameter the numbers have their middles.
    fn places(&self, marks: &[&Mark]) -> Vec<f64> {
        let extent = |mark: &&Mark| self.diameter.extent(&mark.text());
        let label = |mark: &&Mark| Label {
            wanted: mark.along,
            extent: extent(mark).0 + 2.0 * GAP,
        };
        let labels: Vec<Label> = marks.iter().map(label).collect();
        let across = marks.iter().map(|mark| extent(mark).1);
        let least = self.least_along(across.fold(0.0, f64::max));
        spread(&labels, least, 2.0 * RADIUS - least)
    }

    /// How far along the diameter the dashed circle and the zero wall reach
    /// beside numbers that take so much across it.
    fn least_along(&self, across: f64) -> f64 {
        let reach = self.beside + across;
        let dashed = RADIUS - (self.dashed * self.dashed - reach * reach).sqrt();
        dashed.max(Pen::Zero.width() / 2.0)
    }

    /// The numbers of a mark with their middle there, and their leader.
    fn number(&self, mark: &Mark, place: f64) -> [Shape; 2] {
        let beside = |along, across| self.diameter.place(along, self.side * across);
        let (along, across) = self.diameter.extent(&mark.text());
        let end = mark.along.max(place - along / 2.0).min(place + along / 2.0);
        let (from, to) = (beside(mark.along, DOT), beside(end, self.beside - GAP));
        let middle = beside(place, self.beside + across / 2.0);
        [mark.text().centered(middle), line(from, to, Pen::Leader)]
    }
}
