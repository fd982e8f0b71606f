//! The page of a round stack: caption, cross-section, and the probe with the
//! distances.

mod diameter;
mod groups;
mod marks;
mod probe;
mod section;
mod sentences;

use super::caption::caption;
use super::page::Part;

/// A round stack's layout: diameter in 0.1 in, nozzle and the points' distances
/// in 0.001 in.
pub struct Layout<'a> {
    diameter: u16,
    nozzle: u16,
    distances: &'a [u32],
}

impl Layout<'_> {
    /// From wall to wall, 0.001 in.
    fn across(&self) -> u32 {
        u32::from(self.diameter) * 100
    }

    /// How near to the wall a point may stand, 0.001 in.
    fn margin(&self) -> u32 {
        let least = if self.diameter <= 240 { 500 } else { 1_000 };
        u32::from(self.nozzle).max(least)
    }
}

pub fn page(diameter: u16, nozzle: u16, distances: &[u32]) -> Vec<Part> {
    let layout = Layout {
        diameter,
        nozzle,
        distances,
    };
    let groups = marks::joined(&layout);
    let caption = caption(
        &sentences::title(&layout),
        &sentences::sentences(&layout, &groups),
    );
    let section = section::part(&layout, &groups, caption.bottom, probe::TOP);
    vec![
        caption.part,
        section,
        probe::part(&layout),
        probe::points(&layout),
    ]
}
