//! The cross-section of a round stack, to scale: wall, margin, and the two
//! diameters with their ports, their zero walls and their points.

use super::diameter::{Diameter, Name, RADIUS};
use super::groups::Group;
use super::{marks, Layout};
use crate::drawing::page::{
    at, circle, line, rectangle, Part, Pen, Place, Shape, BESIDE_PORT, HALF_PORT, PORT, WALL, WIDTH,
};
use crate::drawing::text::{Text, NAME};

/// How far the zero wall is marked to both sides of the diameter.
const HALF_ZERO: f64 = 12.0;
/// What stands below the wall: port B and its name.
const BELOW: f64 = PORT + 14.0;
/// The dashed circle is drawn if there is this much between it and the wall.
const SEEN: f64 = 1.5;

/// The cross-section halfway between the height of `top` and that of `bottom`.
pub fn part(layout: &Layout, groups: &[Group], top: f64, bottom: f64) -> Part {
    let spare = bottom - top - 2.0 * RADIUS - WALL - BELOW;
    let center = at(WIDTH / 2.0, top + spare / 2.0 + WALL + RADIUS);
    let mut shapes = walls(layout, center);
    let [a, b] = [Name::A, Name::B].map(|name| Diameter { name, center });
    for diameter in [a, b] {
        shapes.extend(port(diameter));
        shapes.extend(marks::shapes(layout, groups, diameter));
    }
    shapes.extend(names(a, b));
    Part {
        name: "cross-section",
        shapes,
    }
}

/// Whether the margin is wide enough to be drawn.
pub fn shows_margin(layout: &Layout) -> bool {
    margin(layout) >= SEEN
}

/// Units between the wall and the dashed circle.
fn margin(layout: &Layout) -> f64 {
    f64::from(layout.margin()) * marks::scale(layout)
}

/// The wall, and how near to it a point may stand.
fn walls(layout: &Layout, center: Place) -> Vec<Shape> {
    let mut walls = vec![
        circle(center, RADIUS + WALL / 2.0, Pen::Wall),
        circle(center, RADIUS, Pen::Inside),
    ];
    if shows_margin(layout) {
        walls.push(circle(center, RADIUS - margin(layout), Pen::Border));
    }
    walls
}

/// A diameter, its port and its zero wall.
fn port(diameter: Diameter) -> [Shape; 3] {
    let place = |along, across| diameter.place(along, across);
    [
        rectangle(place(-PORT, -HALF_PORT), place(0.0, HALF_PORT), Pen::Port),
        line(place(0.0, 0.0), place(2.0 * RADIUS, 0.0), Pen::Diameter),
        line(place(0.0, -HALF_ZERO), place(0.0, HALF_ZERO), Pen::Zero),
    ]
}

/// The names of the ports and of the zero walls.
fn names(a: Diameter, b: Diameter) -> [Shape; 6] {
    let name = |words: &str| Text::new(words, NAME);
    [
        name("port A").ending(a.place(-PORT - BESIDE_PORT, 0.0)),
        name("zero wall").ending(a.place(-18.0, -24.0)),
        line(a.place(-16.0, -22.0), a.place(0.0, -HALF_ZERO), Pen::Leader),
        name("port B").centered(b.place(-PORT - BESIDE_PORT - NAME / 2.0, 0.0)),
        name("zero wall").starting(b.place(-20.0, 28.0)),
        line(b.place(-18.0, 26.0), b.place(0.0, HALF_ZERO), Pen::Leader),
    ]
}
