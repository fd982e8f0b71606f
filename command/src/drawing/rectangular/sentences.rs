//! What the caption of a rectangular stack says.

use super::scales::{Scales, Side, Stretch};
use super::Layout;
use crate::drawing::inches::of_tenths;

pub fn title(layout: &Layout) -> String {
    let (first, second) = (of_tenths(layout.first), of_tenths(layout.second));
    let points = layout.centers.len();
    format!(
        "Rectangular stack, first side {first} (across), second side {second} (down), \
         {points} points"
    )
}

pub fn sentences(layout: &Layout, scales: &Scales) -> Vec<String> {
    let columns = layout.columns();
    let scale = match scales.stretch {
        None => "Drawn to scale.".into(),
        Some(stretch) => not_to_scale(stretch),
    };
    vec![
        "Under each point: its distance along the first side, then that along the second, in \
         inches."
            .into(),
        "They are measured from the zero walls, drawn heavy: the insides of the left and the top \
         wall."
            .into(),
        format!(
            "Each row has its port in the left wall: points 1 to {columns} are reached through \
             port 1, and so on."
        ),
        scale,
    ]
}

fn not_to_scale(stretch: Stretch) -> String {
    let (longer, other) = match stretch.side {
        Side::First => ("first", "second"),
        Side::Second => ("second", "first"),
    };
    let factor = stretch.factor();
    format!(
        "Not to scale: compared with the {other} side, the {longer} is drawn {factor} times as \
         long as it is."
    )
}
