//! A diameter of a round stack as a straight bar, to scale, with a tick for
//! each point and above it the point's number and its distance.

use super::Layout;
use crate::drawing::inches::{bare, of_tenths};
use crate::drawing::page::{
    at, line, rectangle, Part, Pen, Shape, BESIDE_PORT, BOTTOM, HALF_PORT, LEFT, PORT, RIGHT, WALL,
    WIDTH,
};
use crate::drawing::size;
use crate::drawing::spread::{spread, Label};
use crate::drawing::text::{Text, NAME};

/// The size of the numbers and of the distances.
const LABEL: f64 = 11.0;
/// Between neighboring labels.
const GAP: f64 = 4.0;

/// The zero wall and the far wall.
const ZERO: f64 = LEFT + PORT;
const FAR: f64 = RIGHT - WALL;

// From the bottom of the page upwards.
const SIZE: f64 = BOTTOM - size::THICKNESS;
const NAMES: f64 = SIZE - 12.0;
const BAR: f64 = NAMES - 24.0;
const TICKS: f64 = BAR - 12.0;
const NUMBERS: f64 = TICKS - 46.0;
const DISTANCES: f64 = NUMBERS - 9.0;
const HEADING: f64 = DISTANCES - 60.0;

/// How far the bar, and the walls at its ends, reach up and down.
const HALF_BAR: f64 = 3.5;
const HALF_WALL: f64 = 14.0;

/// Where the probe begins.
pub const TOP: f64 = HEADING - 12.0;

/// The bar, its walls and its port.
pub fn part(layout: &Layout) -> Part {
    let name = |words: &str| Text::new(words, NAME);
    let mut shapes = vec![
        name("Distances from the zero wall, inches, the same on both diameters")
            .centered(at(WIDTH / 2.0, HEADING)),
        rectangle(
            at(LEFT, BAR - HALF_PORT),
            at(ZERO, BAR + HALF_PORT),
            Pen::Port,
        ),
        rectangle(
            at(ZERO, BAR - HALF_BAR),
            at(FAR, BAR + HALF_BAR),
            Pen::Diameter,
        ),
        name("port").starting(at(LEFT, BAR - HALF_PORT - BESIDE_PORT - NAME / 2.0)),
        name("zero wall").starting(at(ZERO, NAMES)),
        name("far wall").ending(at(RIGHT, NAMES)),
    ];
    shapes.extend(walls());
    let diameter = format!("diameter {}", of_tenths(layout.diameter));
    shapes.extend(size::across(ZERO, FAR, SIZE, diameter));
    Part {
        name: "probe",
        shapes,
    }
}

fn walls() -> Vec<Shape> {
    let upright = |x: f64, pen: Pen| line(at(x, BAR - HALF_WALL), at(x, BAR + HALF_WALL), pen);
    vec![
        upright(ZERO, Pen::Zero),
        upright(FAR + WALL / 2.0, Pen::Wall),
        upright(FAR, Pen::Inside),
    ]
}

/// Each point's tick, leader, number and distance.
pub fn points(layout: &Layout) -> Part {
    let scale = (FAR - ZERO) / f64::from(layout.across());
    let tick = |distance: &u32| ZERO + f64::from(*distance) * scale;
    let ticks: Vec<f64> = layout.distances.iter().map(tick).collect();
    let mut shapes = Vec::new();
    for (index, (x, label)) in ticks.iter().zip(labels(&ticks)).enumerate() {
        let distance = bare(layout.distances[index]);
        shapes.extend([
            line(at(*x, TICKS), at(*x, BAR + HALF_BAR), Pen::Tick),
            line(at(*x, TICKS), at(label, NUMBERS + 7.0), Pen::Leader),
            number(index + 1).centered(at(label, NUMBERS)),
            Text::new(distance, LABEL)
                .turned()
                .starting(at(label, DISTANCES)),
        ]);
    }
    Part {
        name: "points",
        shapes,
    }
}

fn number(number: usize) -> Text {
    Text::new(number.to_string(), LABEL).bold()
}

/// Where the labels of ticks stand.
fn labels(ticks: &[f64]) -> Vec<f64> {
    let extent = number(ticks.len()).length() + GAP;
    let label = |&wanted: &f64| Label { wanted, extent };
    let labels: Vec<Label> = ticks.iter().map(label).collect();
    spread(&labels, LEFT, RIGHT)
}
