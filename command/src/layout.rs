//! A traverse layout as a list, or drawn.

use std::slice;

use leverbonnet::Error;
use words::{standard, Layout, Stack, Status};

use crate::drawing;
use crate::trouble;

/// Prints the layout, and says on standard error what was understood.
pub fn printed(layout: &Layout) -> Status {
    standard::note(&layout.to_string());
    match text(layout) {
        Ok(text) => standard::print(text.as_bytes()),
        Err(Error::Refused(refusal)) => {
            let written = standard::print(trouble::refused(&refusal).as_bytes());
            let (cause, number) = (refusal.cause(), refusal.number);
            standard::tell(&format!("refused, {cause} ({number})."));
            written.max(Status::Refused)
        }
        Err(Error::Unreached(why)) => {
            standard::tell(&trouble::unreached(&why));
            Status::Failed
        }
    }
}

fn text(layout: &Layout) -> Result<String, Error> {
    let points = layout.points;
    let text = match layout.stack {
        Stack::Round { diameter, nozzle } => {
            let distances = leverbonnet::round_distances(points, diameter, nozzle)?;
            if layout.drawn {
                drawing::round(diameter, nozzle, &distances)
            } else {
                list(distances.iter().map(slice::from_ref))
            }
        }
        Stack::Rectangular { first, second } => {
            let centers = leverbonnet::rect_distances(points, first, second)?;
            if layout.drawn {
                drawing::rectangular(first, second, &centers)
            } else {
                list(centers.iter().map(|center| center.as_slice()))
            }
        }
    };
    Ok(text)
}

/// A line a point: its number and its distances, 0.001 in.
fn list<'a>(points: impl Iterator<Item = &'a [u32]>) -> String {
    let line = |(index, distances): (usize, &[u32])| {
        let distances: String = distances.iter().map(|one| format!(" {one}")).collect();
        format!("{}{distances}\n", index + 1)
    };
    points.enumerate().map(line).collect()
}
