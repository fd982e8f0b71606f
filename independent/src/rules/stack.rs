//! Rules 7 to 9: the stack, its disturbances, and the number of points in it.

use super::{Asking, Broken};
use crate::condition::Condition;
use crate::diameter::{Diameter, LEAST_DIAMETER};
use crate::figure::Figure;
use crate::job::{Run, Shape};
use crate::points::{least_points, next_allowed};

pub(super) fn ask(asking: &mut Asking<impl FnMut(Broken)>, run: &Run, figure: Option<&Figure>) {
    asking.whole_run(7, width(run));
    asking.either(8, [next_disturbance(run), last_disturbance(run)]);
    asking.either(9, [enough_points(run, figure), allowed_points(run)]);
}

fn width(run: &Run) -> Condition {
    let (diameter, least) = Diameter::of(run).beside(LEAST_DIAMETER);
    Condition::below(
        diameter as i64,
        least as i64,
        match run.shape {
            Shape::Round => "the diameter of the stack; the least diameter (0.1 in)",
            Shape::Rectangular => {
                "2 x first side x second side; 120 x the sum of both sides (sides in 0.1 in)"
            }
        },
    )
}

/// Half a diameter, which of a rectangle is LW/(L+W).
fn next_disturbance(run: &Run) -> Condition {
    let distance = i64::from(run.to_next_disturbance);
    let [first, second] = run.sides.map(i64::from);
    match run.shape {
        Shape::Round => Condition::below(
            2 * distance,
            first,
            "2 x the distance to the next disturbance; the diameter of the stack (0.1 in)",
        ),
        Shape::Rectangular => Condition::below(
            distance * (first + second),
            first * second,
            "the distance to the next disturbance x the sum of both sides; \
             first side x second side (distance and sides in 0.1 in)",
        ),
    }
}

/// Two diameters, which of a rectangle are 4LW/(L+W).
fn last_disturbance(run: &Run) -> Condition {
    let distance = i64::from(run.from_last_disturbance);
    let [first, second] = run.sides.map(i64::from);
    match run.shape {
        Shape::Round => Condition::below(
            distance,
            2 * first,
            "the distance from the last disturbance; 2 x the diameter of the stack (0.1 in)",
        ),
        Shape::Rectangular => Condition::below(
            distance * (first + second),
            4 * first * second,
            "the distance from the last disturbance x the sum of both sides; \
             4 x first side x second side (distance and sides in 0.1 in)",
        ),
    }
}

fn enough_points(run: &Run, figure: Option<&Figure>) -> Condition {
    Condition::below(
        run.points.len() as i64,
        i64::from(least_points(run, figure)),
        match run.shape {
            Shape::Round => {
                "points; the least number of points in a round stack with these disturbances"
            }
            Shape::Rectangular => {
                "points; the least number of points in a rectangular stack with these disturbances"
            }
        },
    )
}

fn allowed_points(run: &Run) -> Condition {
    let points = run.points.len() as u16;
    Condition::differs(
        i64::from(points),
        i64::from(next_allowed(run.shape, points)),
        match run.shape {
            Shape::Round => {
                "points; the next number of points allowed in a round stack, a multiple of 4"
            }
            Shape::Rectangular => {
                "points; the next number of points allowed in a rectangular stack, \
                 or 49, the highest"
            }
        },
    )
}
