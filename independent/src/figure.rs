//! A figure: how many points a run needs at least, by its distance from the last
//! disturbance and by that to the next. Its values, a figure's bytes made from them,
//! reading it, and what it asks for.

use std::ops::RangeInclusive;

use crate::answer::{Reason, Refusal};
use crate::diameter::Diameter;
use crate::job::{Run, Shape};

pub const MARK: &[u8; 3] = b"FIG";
pub const VERSION: u16 = 1;
/// Mark and version, before the first list.
pub const HEADER_LENGTH: usize = 5;
pub const STEP_LENGTH: usize = 4;
pub const MOST_STEPS: u8 = 16;
pub const MOST_ROUND: u8 = 48;
pub const MOST_RECTANGULAR: u8 = 49;

/// One that is read has at least one step in each list.
#[derive(Clone, Debug, PartialEq, Eq)]
pub struct Figure {
    pub from_last: Vec<Step>,
    pub to_next: Vec<Step>,
}

/// So many points are asked for from that distance on.
#[derive(Clone, Copy, Debug, PartialEq, Eq)]
pub struct Step {
    /// 0.01 diameter.
    pub least_distance: u16,
    pub round: u8,
    pub rectangular: u8,
}

impl Figure {
    /// Nothing is checked here: values out of range make a figure that is refused.
    pub fn bytes(&self) -> Vec<u8> {
        let mut bytes = MARK.to_vec();
        bytes.extend(VERSION.to_le_bytes());
        for steps in [&self.from_last, &self.to_next] {
            bytes.push(steps.len() as u8);
            for step in steps {
                step.append_to(&mut bytes);
            }
        }
        bytes
    }

    /// Field by field from the front: the first in trouble is the refusal's place.
    pub fn read(figure: &[u8]) -> Result<Self, Refusal> {
        let mut fields = Fields { figure, start: 0 };
        fields.next(|mark| mark == *MARK)?;
        fields.u16(|version| version == VERSION)?;
        let read = Figure {
            from_last: read_steps(&mut fields)?,
            to_next: read_steps(&mut fields)?,
        };
        match fields.start == figure.len() {
            true => Ok(read),
            false => Err(fields.refusal(fields.start)),
        }
    }

    /// The higher of the two numbers of points that the run's distances ask for.
    pub fn asked(&self, run: &Run) -> u8 {
        let [last, next] = self.taken(run);
        last.points(run.shape).max(next.points(run.shape))
    }

    /// The step taken by the distance from the last disturbance, and that by the
    /// distance to the next.
    pub fn taken(&self, run: &Run) -> [Step; 2] {
        let diameter = Diameter::of(run);
        [
            last_reached(&self.from_last, run.from_last_disturbance, diameter),
            last_reached(&self.to_next, run.to_next_disturbance, diameter),
        ]
    }
}

/// The first step where the distance reaches none.
fn last_reached(steps: &[Step], distance: u16, diameter: Diameter) -> Step {
    let mut from_last = steps.iter().rev();
    let reached = from_last.find(|step| !diameter.nearer_than(distance, step.least_distance));
    *reached.unwrap_or(&steps[0])
}

impl Step {
    pub fn points(&self, shape: Shape) -> u8 {
        match shape {
            Shape::Round => self.round,
            Shape::Rectangular => self.rectangular,
        }
    }

    fn append_to(&self, bytes: &mut Vec<u8>) {
        bytes.extend(self.least_distance.to_le_bytes());
        bytes.extend([self.round, self.rectangular]);
    }
}

fn read_steps(fields: &mut Fields) -> Result<Vec<Step>, Refusal> {
    let count = fields.u8(1..=MOST_STEPS)?;
    let mut steps = Vec::new();
    for _ in 0..count {
        let step = read_step(fields, steps.last())?;
        steps.push(step);
    }
    Ok(steps)
}

/// Distances rise, and points never do.
fn read_step(fields: &mut Fields, before: Option<&Step>) -> Result<Step, Refusal> {
    Ok(Step {
        least_distance: fields
            .u16(|distance| before.map_or(true, |before| distance > before.least_distance))?,
        round: fields.u8(1..=before.map_or(MOST_ROUND, |before| before.round))?,
        rectangular: fields.u8(1..=before.map_or(MOST_RECTANGULAR, |before| before.rectangular))?,
    })
}

/// The figure from the front on; `start` is where the next field begins.
struct Fields<'a> {
    figure: &'a [u8],
    start: usize,
}

impl Fields<'_> {
    fn refusal(&self, place: usize) -> Refusal {
        Refusal::new(Reason::Figure, place)
    }

    /// The next field, if all of it is there and it will do.
    fn next<const LENGTH: usize>(
        &mut self,
        will_do: impl Fn([u8; LENGTH]) -> bool,
    ) -> Result<[u8; LENGTH], Refusal> {
        let bytes = self.figure[self.start..]
            .get(..LENGTH)
            .ok_or(self.refusal(self.figure.len()))?;
        let field = bytes.try_into().expect("a slice of LENGTH bytes");
        if !will_do(field) {
            return Err(self.refusal(self.start));
        }
        self.start += LENGTH;
        Ok(field)
    }

    fn u8(&mut self, range: RangeInclusive<u8>) -> Result<u8, Refusal> {
        let [value] = self.next(|[value]| range.contains(&value))?;
        Ok(value)
    }

    fn u16(&mut self, will_do: impl Fn(u16) -> bool) -> Result<u16, Refusal> {
        let bytes = self.next(|bytes| will_do(u16::from_le_bytes(bytes)))?;
        Ok(u16::from_le_bytes(bytes))
    }
}
