//! The cross-section of a rectangular stack: walls, cells, ports and points.

use super::cell::Cell;
use super::scales::Scales;
use super::Layout;
use crate::drawing::inches::of_tenths;
use crate::drawing::page::{
    at, line, rectangle, Part, Pen, Place, Shape, BESIDE_PORT, BOTTOM, HALF_PORT, LEFT, PORT,
    RIGHT, TOP, WALL,
};
use crate::drawing::size;
use crate::drawing::text::{Text, NAME};

/// The name of a port is no longer than this.
const PORT_NAME: f64 = 36.0;
/// A line of text beside the walls.
const LINE: f64 = 12.0;

/// What stands around the inside of the walls.
const LEFT_OF: f64 = LINE + PORT_NAME + BESIDE_PORT + PORT;
const ABOVE: f64 = WALL + LINE;
const RIGHT_OF: f64 = SIZE + size::THICKNESS;
const BELOW: f64 = SIZE + size::THICKNESS;
/// From the inside of a wall to the line that says how long it is.
const SIZE: f64 = WALL + 8.0;

/// The most that a caption takes, with the least space below it.
const CAPTION: f64 = 90.0;
/// The most space below a caption.
const MOST_SPACE: f64 = 40.0;

/// The width and the height that there is room for.
pub const ROOM: (f64, f64) = (
    RIGHT - LEFT - LEFT_OF - RIGHT_OF,
    BOTTOM - TOP - CAPTION - ABOVE - BELOW,
);

pub struct Grid<'a> {
    layout: &'a Layout<'a>,
    scales: &'a Scales,
    /// Its upper left corner, and its width and height.
    corner: Place,
    wide: f64,
    high: f64,
}

impl<'a> Grid<'a> {
    /// In the middle of the page, below the caption that ends at `top`.
    pub fn below(layout: &'a Layout, scales: &'a Scales, top: f64) -> Grid<'a> {
        let wide = f64::from(layout.first) * 100.0 * scales.across;
        let high = f64::from(layout.second) * 100.0 * scales.down;
        let spare_wide = RIGHT - LEFT - LEFT_OF - wide - RIGHT_OF;
        let spare_high = BOTTOM - top - ABOVE - high - BELOW;
        Grid {
            layout,
            scales,
            corner: at(
                LEFT + LEFT_OF + spare_wide / 2.0,
                top + (spare_high / 2.0).min(MOST_SPACE) + ABOVE,
            ),
            wide,
            high,
        }
    }

    /// A place so far from the zero walls.
    fn place(&self, across: f64, down: f64) -> Place {
        at(self.corner.x + across, self.corner.y + down)
    }

    /// The walls with their names and sizes, and the borders of the cells.
    pub fn walls(&self) -> Part {
        let (wide, high) = (self.wide, self.high);
        let (body, corner) = (WALL / 2.0, Pen::Zero.width() / 2.0);
        let mut shapes = vec![rectangle(
            self.place(-body, -body),
            self.place(wide + body, high + body),
            Pen::Wall,
        )];
        shapes.extend(self.borders());
        shapes.extend([
            rectangle(self.place(0.0, 0.0), self.place(wide, high), Pen::Inside),
            line(self.place(-corner, 0.0), self.place(wide, 0.0), Pen::Zero),
            line(self.place(0.0, 0.0), self.place(0.0, high), Pen::Zero),
        ]);
        shapes.extend(self.zero_names());
        shapes.extend(self.sizes());
        Part {
            name: "walls",
            shapes,
        }
    }

    fn borders(&self) -> Vec<Shape> {
        let (columns, rows) = (self.layout.columns(), self.layout.rows());
        let upright = (1..columns).map(|column| {
            let x = self.wide * column as f64 / columns as f64;
            line(self.place(x, 0.0), self.place(x, self.high), Pen::Border)
        });
        let level = (1..rows).map(|row| {
            let y = self.high * row as f64 / rows as f64;
            line(self.place(0.0, y), self.place(self.wide, y), Pen::Border)
        });
        upright.chain(level).collect()
    }

    fn zero_names(&self) -> Vec<Shape> {
        let of_first = Text::new("zero wall, first side", NAME).turned();
        let of_second = Text::new("zero wall, second side", NAME);
        vec![
            of_first.centered(self.place(-LEFT_OF + LINE / 2.0, self.high / 2.0)),
            of_second.centered(self.place(self.wide / 2.0, -ABOVE + LINE / 2.0)),
        ]
    }

    fn sizes(&self) -> Vec<Shape> {
        let (from, to) = (self.place(0.0, 0.0), self.place(self.wide, self.high));
        let first = format!("first side {}", of_tenths(self.layout.first));
        let second = format!("second side {}", of_tenths(self.layout.second));
        let mut shapes = size::across(from.x, to.x, to.y + SIZE, first);
        shapes.extend(size::down(from.y, to.y, to.x + SIZE, second));
        shapes
    }

    /// A port at the height of each row.
    pub fn ports(&self) -> Part {
        let rows = self.layout.centers.iter().step_by(self.layout.columns());
        let shapes = rows.enumerate().flat_map(|(index, center)| {
            let down = f64::from(center[1]) * self.scales.down;
            let name = Text::new(format!("port {}", index + 1), NAME);
            [
                rectangle(
                    self.place(-PORT, down - HALF_PORT),
                    self.place(0.0, down + HALF_PORT),
                    Pen::Port,
                ),
                line(
                    self.place(0.0, down - HALF_PORT),
                    self.place(0.0, down + HALF_PORT),
                    Pen::Zero,
                ),
                name.ending(self.place(-PORT - BESIDE_PORT, down)),
            ]
        });
        Part {
            name: "ports",
            shapes: shapes.collect(),
        }
    }

    /// Each point with its number and its distances.
    pub fn points(&self) -> Part {
        let (columns, rows) = (self.layout.columns(), self.layout.rows());
        let centers = self.layout.centers;
        let cell = Cell::within(centers, self.wide / columns as f64, self.high / rows as f64);
        let point = |(index, &center): (usize, &[u32; 2])| {
            let across = f64::from(center[0]) * self.scales.across;
            let down = f64::from(center[1]) * self.scales.down;
            cell.shapes(self.place(across, down), index + 1, center)
        };
        Part {
            name: "points",
            shapes: centers.iter().enumerate().flat_map(point).collect(),
        }
    }
}
