//! The fields that have a range of their own, with its ends: for values within
//! it, and for values just outside. What depends on another field stands in
//! `invent` and `spoil`.

use independent::job::{Point, Run, Segment, Weighing};

use crate::random::Random;

/// The numbers of points a rectangular stack may have.
pub const RECTANGULAR_COUNTS: [u16; 9] = [9, 12, 16, 20, 25, 30, 36, 42, 49];

pub struct Field<T> {
    pub least: i64,
    pub greatest: i64,
    pub put: fn(&mut T, i64),
}

/// A macro, since a const function of Rust 1.63 takes no `fn(&mut T)`.
macro_rules! field {
    ($least:expr, $greatest:expr, $put:expr) => {
        Field {
            least: $least,
            greatest: $greatest,
            put: $put,
        }
    };
}

pub const RUN: [Field<Run>; 10] = [
    field!(2_000, 3_200, |run, value| run.barometer = value as u16),
    field!(-3_000, 3_000, |run, value| run.stack_static = value as i16),
    field!(0, 20_000, |run, value| run.water = value as u16),
    field!(1, 500, |run, value| run.blank_volume = value as u16),
    field!(0, 1_000, |run, value| run.rinse_volume = value as u16),
    field!(5_000, 9_999, |run, value| {
        run.acetone_density = value as u16
    }),
    // These hold anything their bytes can.
    field!(0, 65_535, |run, value| run.blank_residue = value as u16),
    field!(0, 65_535, |run, value| {
        run.to_next_disturbance = value as u16
    }),
    field!(0, 65_535, |run, value| {
        run.from_last_disturbance = value as u16
    }),
    field!(0, 65_535, |run, value| run.day = value as u16),
];

pub const POINT: [Field<Point>; 5] = [
    field!(0, 10_000, |point, value| point.velocity_head = value as u16),
    field!(0, 2_000, |point, value| point.orifice_head = value as u16),
    field!(-400, 20_000, |point, value| {
        point.stack_temperature = value as i16
    }),
    field!(0, 1_500, |point, value| point.meter_inlet = value as i16),
    field!(0, 1_500, |point, value| point.meter_outlet = value as i16),
];

pub const POINT_SECONDS: Field<Point> =
    field!(1, 36_000, |point, value| point.seconds = value as u16);

pub const SEGMENT_SECONDS: Field<Segment> =
    field!(1, 36_000, |segment, value| segment.seconds = value as u16);

pub const SEGMENT_LEAK: Field<Segment> =
    field!(0, 1_000, |segment, value| segment.leak = value as u16);

pub const WEIGHING: [Field<Weighing>; 3] = [
    field!(0, 4_000_000, |weighing, value| weighing.tare = value as u32),
    field!(0, 4_000_000, |weighing, value| {
        weighing.first_final = value as u32
    }),
    field!(0, 4_000_000, |weighing, value| {
        weighing.second_final = value as u32
    }),
];

impl<T> Field<T> {
    pub fn put_inside(&self, random: &mut Random, record: &mut T) {
        let value = random.near_ends(self.least, self.greatest);
        (self.put)(record, value);
    }

    /// A value below the least one of an unsigned field wraps to a great one,
    /// which is outside just as well.
    pub fn put_outside(&self, random: &mut Random, record: &mut T) {
        let below = random.pick(&[1, 2, 100]);
        let above = random.pick(&[1, 2, 10_000]);
        let value = random.pick(&[self.least - below, self.greatest + above]);
        (self.put)(record, value);
    }

    pub fn has_outside(&self) -> bool {
        (self.least, self.greatest) != (0, 65_535)
    }
}
