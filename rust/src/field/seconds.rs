//! Refusal 7: how long a run's points last together, and its segments.

use super::numbers::with_commas;
use super::part::{Part, Which};

/// The most seconds that a run's points may last.
const MOST: i64 = 36_000;

/// The clause for a run and the parts behind it.
pub fn not_in_order(run: &Part, behind: &[Part]) -> Option<String> {
    let is_run = |part: &Part| matches!(part.which, Which::Run(_));
    if !is_run(run) {
        return None;
    }
    let own = || behind.iter().take_while(|part| !is_run(part));
    let points = added_up(own().filter(|part| matches!(part.which, Which::Point(..))))?;
    let segments = added_up(own().filter(|part| matches!(part.which, Which::Segment(..))))?;
    let (name, shown) = (run.which.name(), with_commas(points));
    if points > MOST {
        let most = with_commas(MOST);
        Some(format!(
            "the points of {name} last {shown} seconds, over {most}"
        ))
    } else if segments != points {
        let segments = with_commas(segments);
        Some(format!(
            "the segments of {name} last {segments} seconds and its points {shown}"
        ))
    } else {
        None
    }
}

/// The seconds of these parts, if they are all complete.
fn added_up<'a>(parts: impl Iterator<Item = &'a Part<'a>>) -> Option<i64> {
    parts.map(|part| part.number("seconds")).sum()
}
