//! A stack's diameter as an exact fraction, so that it is compared unrounded.

use crate::job::{Run, Shape};

/// The narrowest stack sampled without a fault, and laid out at all: 12 in.
pub const LEAST_DIAMETER: u16 = 120;

/// The widest stack that counts as small: 24 in.
pub const GREATEST_SMALL_DIAMETER: u16 = 240;

/// 0.1 in. A rectangle's 2LW/(L+W) is kept as its two whole numbers.
#[derive(Clone, Copy)]
pub struct Diameter {
    numerator: u64,
    denominator: u64,
}

impl Diameter {
    pub fn of(run: &Run) -> Self {
        match run.shape {
            Shape::Round => Diameter {
                numerator: u64::from(run.sides[0]),
                denominator: 1,
            },
            Shape::Rectangular => Diameter::of_rectangle(run.sides[0], run.sides[1]),
        }
    }

    /// Not both sides are 0.
    pub fn of_rectangle(first: u16, second: u16) -> Self {
        let (first, second) = (u64::from(first), u64::from(second));
        Diameter {
            numerator: 2 * first * second,
            denominator: first + second,
        }
    }

    /// The diameter and so many tenths of an inch, as whole numbers that stand to each
    /// other as they do.
    pub fn beside(self, tenths: u16) -> (u64, u64) {
        (self.numerator, u64::from(tenths) * self.denominator)
    }

    pub fn is_below(self, tenths: u16) -> bool {
        let (diameter, tenths) = self.beside(tenths);
        diameter < tenths
    }

    pub fn is_above(self, tenths: u16) -> bool {
        let (diameter, tenths) = self.beside(tenths);
        diameter > tenths
    }

    /// Whether a disturbance at the distance (0.1 in) is nearer than so many
    /// hundredths of a diameter.
    pub fn nearer_than(self, distance: u16, hundredths: u16) -> bool {
        100 * u64::from(distance) * self.denominator < u64::from(hundredths) * self.numerator
    }
}
