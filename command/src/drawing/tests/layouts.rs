//! The layouts whose pages are looked at. Their distances are those of the
//! independent program.

use std::fmt;

use crate::drawing::page::Part;
use crate::drawing::{rectangular, round};

pub const GRIDS: [u16; 9] = [9, 12, 16, 20, 25, 30, 36, 42, 49];

/// Points and two sizes, as they are asked for.
#[derive(Clone, Copy)]
pub enum Layout {
    Round(u16, u16, u16),
    Rectangular(u16, u16, u16),
}

impl Layout {
    pub fn page(self) -> Vec<Part> {
        match self {
            Layout::Round(_, diameter, nozzle) => round::page(diameter, nozzle, &self.distances()),
            Layout::Rectangular(_, first, second) => {
                rectangular::page(first, second, &self.centers())
            }
        }
    }

    /// Those of a round layout.
    pub fn distances(self) -> Vec<u32> {
        match self {
            Layout::Round(points, diameter, nozzle) => {
                independent::round_distances(points, diameter, nozzle).expect("it is in range")
            }
            Layout::Rectangular(..) => panic!("{self} has two distances a point"),
        }
    }

    /// Those of a rectangular layout.
    pub fn centers(self) -> Vec<[u32; 2]> {
        match self {
            Layout::Rectangular(points, first, second) => {
                independent::rect_distances(points, first, second).expect("it is in range")
            }
            Layout::Round(..) => panic!("{self} has one distance a point"),
        }
    }
}

impl fmt::Display for Layout {
    fn fmt(&self, f: &mut fmt::Formatter) -> fmt::Result {
        match self {
            Layout::Round(points, diameter, nozzle) => {
                write!(f, "round {points} {diameter} {nozzle}")
            }
            Layout::Rectangular(points, first, second) => {
                write!(f, "rect {points} {first} {second}")
            }
        }
    }
}

fn counts() -> impl Iterator<Item = u16> {
    (2..=24).step_by(2)
}

/// Round layouts of every count. Up to 92 in the margin moves points, so that
/// there are many sizes of these, and all those at which a moved point comes to
/// stand within 0.02 in of its neighbor.
pub fn round_layouts() -> Vec<Layout> {
    let mut layouts = Vec::new();
    for points in counts() {
        for nozzle in [100, 501, 777, 1_000] {
            for diameter in 120..=920 {
                let layout = Layout::Round(points, diameter, nozzle);
                if diameter % 6 == 1 || nearly_coincides(&layout.distances()) {
                    layouts.push(layout);
                }
            }
            let sizes = [120, 240, 2_399, 2_400, 2_401, 9_999].into_iter();
            let sizes = sizes.chain((950..9_999).step_by(450));
            layouts.extend(sizes.map(|diameter| Layout::Round(points, diameter, nozzle)));
        }
    }
    layouts
}

fn nearly_coincides(distances: &[u32]) -> bool {
    let mut neighbors = distances.windows(2);
    neighbors.any(|two| (1..=20).contains(&(two[1] - two[0])))
}

/// Rectangular layouts of every grid: squares, the longest sides with the
/// shortest, and what lies between.
pub fn rectangular_layouts() -> Vec<Layout> {
    let sides = [
        61, 62, 75, 90, 119, 120, 121, 160, 200, 240, 300, 333, 400, 512, 777, 999, 1_000, 2_500,
        5_000, 9_998, 9_999,
    ];
    let mut layouts = Vec::new();
    for points in GRIDS {
        for first in sides {
            let second = sides.into_iter();
            let layout = |second| Layout::Rectangular(points, first, second);
            layouts.extend(second.filter(|&second| is_wide(first, second)).map(layout));
        }
        // Around the sizes at which a side begins to be drawn longer.
        for first in (300..3_000).step_by(11) {
            layouts.push(Layout::Rectangular(points, first, 1_000));
        }
    }
    layouts
}

/// Whether the sides make up a diameter of 12 in.
fn is_wide(first: u16, second: u16) -> bool {
    let (first, second) = (u32::from(first), u32::from(second));
    2 * first * second >= 120 * (first + second)
}
