//! What stands in a cell: the mark of its point in the middle, the number above
//! it and the two distances below it.

use crate::drawing::inches::bare;
use crate::drawing::page::{at, Place, Shape, DOT};
use crate::drawing::text::Text;

/// The least size of the font, which every cell has room for, and the greatest.
const LEAST: f64 = 9.0;
const GREATEST: f64 = 13.0;

/// From the mark to the texts.
const GAP: f64 = 2.5;
/// From the texts to the border of the cell, across and down.
const BESIDE: f64 = 5.0;
const BELOW: f64 = 4.0;
/// From one distance to the other, in parts of the font's size.
const LINE: f64 = 1.15;

/// The texts of a layout's cells.
#[derive(Clone, Copy)]
pub struct Cell {
    size: f64,
}

impl Cell {
    /// With the texts as large as a cell of that width and height has room for.
    pub fn within(centers: &[[u32; 2]], wide: f64, high: f64) -> Cell {
        let room = |size: f64| {
            let (least_wide, least_high) = Cell { size }.room(centers);
            least_wide <= wide && least_high <= high
        };
        let sizes = (0..).map(|step| GREATEST - 0.5 * f64::from(step));
        let size = sizes
            .take_while(|&size| size > LEAST)
            .find(|&size| room(size));
        Cell {
            size: size.unwrap_or(LEAST),
        }
    }

    /// The least width and height of a cell of that layout.
    pub fn least_room(centers: &[[u32; 2]]) -> (f64, f64) {
        Cell { size: LEAST }.room(centers)
    }

    fn room(self, centers: &[[u32; 2]]) -> (f64, f64) {
        let distances = centers.iter().flatten();
        let lengths = distances.map(|&distance| self.distance(distance).length());
        let below = self.first_line() + self.line() + self.thickness() / 2.0;
        (
            lengths.fold(0.0, f64::max) + 2.0 * BESIDE,
            2.0 * (below + BELOW),
        )
    }

    pub fn shapes(self, place: Place, number: usize, distances: [u32; 2]) -> Vec<Shape> {
        let below = |way: f64| at(place.x, place.y + way);
        let number = Text::new(number.to_string(), self.size).bold();
        let first = self.first_line();
        vec![
            Shape::Dot(place),
            number.centered(below(-first)),
            self.distance(distances[0]).centered(below(first)),
            self.distance(distances[1])
                .centered(below(first + self.line())),
        ]
    }

    fn distance(self, distance: u32) -> Text {
        Text::new(bare(distance), self.size)
    }

    fn thickness(self) -> f64 {
        self.distance(0).thickness()
    }

    /// From the mark to the middle of the number, and of the first distance.
    fn first_line(self) -> f64 {
        DOT + GAP + self.thickness() / 2.0
    }

    fn line(self) -> f64 {
        LINE * self.size
    }
}
