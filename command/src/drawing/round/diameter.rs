//! The two diameters of the cross-section, and places along them and beside
//! them.

use crate::drawing::page::{at, Place};
use crate::drawing::text::Text;

/// The stack's, as it is drawn.
pub const RADIUS: f64 = 180.0;

#[derive(Clone, Copy)]
pub enum Name {
    /// From its port at the left to the right.
    A,
    /// From its port at the bottom to the top.
    B,
}

/// A diameter of the circle around that center.
#[derive(Clone, Copy)]
pub struct Diameter {
    pub name: Name,
    pub center: Place,
}

impl Diameter {
    /// A place so far along it from the zero wall, and so far across it: below
    /// A, to the right of B.
    pub fn place(self, along: f64, across: f64) -> Place {
        let Place { x, y } = self.center;
        match self.name {
            Name::A => at(x - RADIUS + along, y + across),
            Name::B => at(x + across, y + RADIUS - along),
        }
    }

    /// How much a text takes along it and across it.
    pub fn extent(self, text: &Text) -> (f64, f64) {
        match self.name {
            Name::A => (text.length(), text.thickness()),
            Name::B => (text.thickness(), text.length()),
        }
    }
}
