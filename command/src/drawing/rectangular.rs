//! The page of a rectangular stack: caption, and the grid of cells, which is
//! the table of the distances too.

mod cell;
mod grid;
mod scales;
mod sentences;

use super::caption::caption;
use super::page::Part;
use scales::Scales;

/// A rectangular stack's layout: sides in 0.1 in, the points' distances along
/// both in 0.001 in.
pub struct Layout<'a> {
    first: u16,
    second: u16,
    centers: &'a [[u32; 2]],
}

impl Layout<'_> {
    /// The cells along the first side: the points of the first row.
    fn columns(&self) -> usize {
        let row = self.centers[0][1];
        self.centers
            .iter()
            .filter(|center| center[1] == row)
            .count()
    }

    /// The cells along the second side.
    fn rows(&self) -> usize {
        self.centers.len() / self.columns()
    }
}

pub fn page(first: u16, second: u16, centers: &[[u32; 2]]) -> Vec<Part> {
    let layout = Layout {
        first,
        second,
        centers,
    };
    let scales = Scales::of(&layout, grid::ROOM);
    let caption = caption(
        &sentences::title(&layout),
        &sentences::sentences(&layout, &scales),
    );
    let grid = grid::Grid::below(&layout, &scales, caption.bottom);
    vec![caption.part, grid.walls(), grid.ports(), grid.points()]
}
