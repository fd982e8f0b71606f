//! Rules 10 to 16: the points' time, leaks, what was metered, and the percent isokinetic.

use super::{Asking, Broken};
use crate::condition::{Condition, Way};
use crate::job::{Point, Run};
use crate::leak;
use crate::lines::{Isokinetic, Lines};

/// The shortest time at a point, in seconds.
const SHORTEST_POINT: i64 = 120;

/// Percent isokinetic, 0.01 percent: judged before it is rounded.
const LEAST_ISOKINETIC: i64 = 9_000;
const GREATEST_ISOKINETIC: i64 = 11_000;

/// No rule has the number 13.
pub(super) fn ask(asking: &mut Asking<impl FnMut(Broken)>, run: &Run, lines: &Lines) {
    asking.each(10, &run.points, time);
    if let (Some(time), Some(volume)) = (lines.line(1), lines.line(2)) {
        let allowance = leak::allowance(time, volume);
        asking.each(11, &run.segments, |segment| {
            leakage(leak::rate(segment.leak, time), allowance)
        });
    }
    asking.whole_run_if(12, lines.line(3).map(no_volume));
    asking.whole_run_if(14, lines.line(15).map(no_velocity));
    let isokinetic = lines.isokinetic();
    asking.whole_run_if(15, isokinetic.map(too_slow));
    asking.whole_run_if(16, isokinetic.map(too_fast));
}

fn time(point: &Point) -> Condition {
    Condition::below(
        i64::from(point.seconds),
        SHORTEST_POINT,
        "time at the point; the least time (seconds)",
    )
}

fn leakage(rate: i64, allowance: i64) -> Condition {
    Condition::above(
        rate,
        allowance,
        "5 x time x leak; the smaller of 100 x time and 12 x volume \
         (time in seconds, leak in 0.001 cfm, volume in 0.001 ft3)",
    )
}

fn no_volume(corrected: i64) -> Condition {
    Condition::equal(
        corrected,
        0,
        "line 3, the corrected volume; no volume (0.001 ft3)",
    )
}

fn no_velocity(velocity: i64) -> Condition {
    Condition::equal(
        velocity,
        0,
        "line 15, the velocity; no velocity (0.001 ft/s)",
    )
}

fn too_slow(exact: Isokinetic) -> Condition {
    Condition::percent(
        exact,
        Way::Below,
        LEAST_ISOKINETIC,
        "percent isokinetic before rounding; its lower limit (0.01 percent)",
    )
}

fn too_fast(exact: Isokinetic) -> Condition {
    Condition::percent(
        exact,
        Way::Above,
        GREATEST_ISOKINETIC,
        "percent isokinetic before rounding; its upper limit (0.01 percent)",
    )
}
