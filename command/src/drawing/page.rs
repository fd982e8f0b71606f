//! A page: named parts, each a list of shapes. US letter, and a unit is a
//! point, 1/72 in. Everything is black, gray or white, because it is printed.

use super::text::Text;

pub const WIDTH: f64 = 612.0;
pub const HEIGHT: f64 = 792.0;

/// Nothing stands nearer to the edge of the page.
const MARGIN: f64 = 36.0;
pub const LEFT: f64 = MARGIN;
pub const TOP: f64 = MARGIN;
pub const RIGHT: f64 = WIDTH - MARGIN;
pub const BOTTOM: f64 = HEIGHT - MARGIN;

/// The radius of the dot that marks a point.
pub const DOT: f64 = 2.5;

/// How far a wall reaches outwards from its inside.
pub const WALL: f64 = 5.0;

/// How far a port's stub reaches outwards from the inside of its wall, and how
/// far to both sides.
pub const PORT: f64 = 26.0;
pub const HALF_PORT: f64 = 6.0;
/// From a port's stub to its name.
pub const BESIDE_PORT: f64 = 4.0;

/// Some shapes that belong together, under a name.
pub struct Part {
    pub name: &'static str,
    pub shapes: Vec<Shape>,
}

pub enum Shape {
    Line {
        from: Place,
        to: Place,
        pen: Pen,
    },
    Circle {
        center: Place,
        radius: f64,
        pen: Pen,
    },
    Rectangle {
        corner: Place,
        wide: f64,
        high: f64,
        pen: Pen,
    },
    /// The mark of a point.
    Dot(Place),
    Text(Text),
}

/// A place on the page, counted from its upper left corner.
#[derive(Clone, Copy, Debug, PartialEq)]
pub struct Place {
    pub x: f64,
    pub y: f64,
}

pub fn at(x: f64, y: f64) -> Place {
    Place { x, y }
}

/// What a line is drawn for.
#[derive(Clone, Copy, Debug, PartialEq, Eq)]
pub enum Pen {
    /// The body of a wall.
    Wall,
    /// The inside of a wall.
    Inside,
    /// The inside of a wall that distances are measured from.
    Zero,
    /// A port's stub, white inside.
    Port,
    /// A diameter, or the probe on it.
    Diameter,
    /// How near to the wall a point may stand; the border of a cell.
    Border,
    /// A point on the probe.
    Tick,
    /// From a mark to what is said of it.
    Leader,
    /// How long something is.
    Size,
}

impl Pen {
    pub fn width(self) -> f64 {
        match self {
            Pen::Wall => WALL,
            Pen::Zero => 3.0,
            Pen::Tick => 1.2,
            Pen::Inside | Pen::Port => 1.0,
            Pen::Diameter | Pen::Border => 0.7,
            Pen::Leader | Pen::Size => 0.5,
        }
    }
}

pub fn line(from: Place, to: Place, pen: Pen) -> Shape {
    Shape::Line { from, to, pen }
}

pub fn circle(center: Place, radius: f64, pen: Pen) -> Shape {
    Shape::Circle {
        center,
        radius,
        pen,
    }
}

/// The rectangle between two opposite corners.
pub fn rectangle(one: Place, other: Place, pen: Pen) -> Shape {
    Shape::Rectangle {
        corner: at(one.x.min(other.x), one.y.min(other.y)),
        wide: (one.x - other.x).abs(),
        high: (one.y - other.y).abs(),
        pen,
    }
}
