//! How large the sides are drawn: to scale where every cell then has room for
//! its texts; otherwise the side that is too short is drawn longer.

use super::cell::Cell;
use super::Layout;

pub struct Scales {
    /// Units on the page for 0.001 in of the first side, and of the second.
    pub across: f64,
    pub down: f64,
    pub stretch: Option<Stretch>,
}

/// A side drawn longer than the other one's scale makes it.
#[derive(Clone, Copy, Debug, PartialEq, Eq)]
pub struct Stretch {
    pub side: Side,
    /// So many tenths of the length it would have.
    pub tenths: u32,
}

#[derive(Clone, Copy, Debug, PartialEq, Eq)]
pub enum Side {
    First,
    Second,
}

impl Scales {
    /// The scales of a layout that is drawn as large as the width and the
    /// height of `room` allow. The side that fills it has cells large enough.
    pub fn of(layout: &Layout, room: (f64, f64)) -> Scales {
        let first = f64::from(layout.first) * 100.0;
        let second = f64::from(layout.second) * 100.0;
        let scale = (room.0 / first).min(room.1 / second);
        let (wide, high) = Cell::least_room(layout.centers);
        let least_wide = wide * layout.columns() as f64;
        let least_high = high * layout.rows() as f64;
        let mut scales = Scales {
            across: scale,
            down: scale,
            stretch: None,
        };
        if let Some(tenths) = tenths(least_wide / (first * scale)) {
            scales.across = scale * f64::from(tenths) / 10.0;
            scales.stretch = Some(Stretch {
                side: Side::First,
                tenths,
            });
        } else if let Some(tenths) = tenths(least_high / (second * scale)) {
            scales.down = scale * f64::from(tenths) / 10.0;
            scales.stretch = Some(Stretch {
                side: Side::Second,
                tenths,
            });
        }
        scales
    }
}

/// A factor that is at least the one needed and can be said exactly: whole from
/// 10 on, in tenths below. None if none is needed.
fn tenths(needed: f64) -> Option<u32> {
    if needed <= 1.0 {
        None
    } else if needed <= 10.0 {
        Some((needed * 10.0).ceil() as u32)
    } else {
        Some(needed.ceil() as u32 * 10)
    }
}

impl Stretch {
    /// `1.2`, `51`.
    pub fn factor(self) -> String {
        if self.tenths < 100 {
            format!("{}.{}", self.tenths / 10, self.tenths % 10)
        } else {
            (self.tenths / 10).to_string()
        }
    }
}

#[cfg(test)]
mod tests {
    use super::*;

    #[test]
    fn a_factor_is_the_next_that_can_be_said() {
        for (needed, factor) in [
            (1.01, "1.1"),
            (1.95, "2.0"),
            (9.85, "9.9"),
            (9.95, "10"),
            (10.1, "11"),
            (89.0, "89"),
        ] {
            let tenths = tenths(needed).unwrap();
            let stretch = Stretch {
                side: Side::First,
                tenths,
            };
            assert_eq!(stretch.factor(), factor);
        }
        assert_eq!(tenths(1.0), None);
    }
}
