//! The numbers of points that a shape allows, and the least that a run needs.

use crate::diameter::{Diameter, GREATEST_SMALL_DIAMETER};
use crate::figure::Figure;
use crate::job::{Run, Shape};
use crate::layout::grid;

/// A site is undisturbed from these distances on, 0.01 diameter.
pub const UNDISTURBED_FROM_LAST: u16 = 800;
pub const UNDISTURBED_TO_NEXT: u16 = 200;

/// The most that a rectangle has.
const LARGEST_GRID: u16 = 49;

pub fn is_allowed(shape: Shape, points: u16) -> bool {
    points == next_allowed(shape, points)
}

/// The first allowed number from so many on. A rectangle has none past its largest
/// grid, which then stands for it.
pub fn next_allowed(shape: Shape, points: u16) -> u16 {
    match shape {
        Shape::Round => (points + 3) / 4 * 4,
        Shape::Rectangular => {
            let mut grids = (points..LARGEST_GRID).filter(|&points| grid(points).is_some());
            grids.next().unwrap_or(LARGEST_GRID)
        }
    }
}

/// Few where the site is undisturbed. Elsewhere as many as the figure asks for, or
/// those of the house rule without one.
pub fn least_points(run: &Run, figure: Option<&Figure>) -> u16 {
    let large = Diameter::of(run).is_above(GREATEST_SMALL_DIAMETER);
    match (is_undisturbed(run), figure, run.shape) {
        (true, _, _) if large => 12,
        (true, _, Shape::Round) => 8,
        (true, _, Shape::Rectangular) => 9,
        (false, Some(figure), shape) => next_allowed(shape, figure.asked(run).into()),
        (false, None, Shape::Round) => 24,
        (false, None, Shape::Rectangular) => 25,
    }
}

pub fn is_undisturbed(run: &Run) -> bool {
    let diameter = Diameter::of(run);
    !diameter.nearer_than(run.from_last_disturbance, UNDISTURBED_FROM_LAST)
        && !diameter.nearer_than(run.to_next_disturbance, UNDISTURBED_TO_NEXT)
}
