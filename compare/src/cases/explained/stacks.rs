//! Stacks of either shape that break either condition of rules 8 and 9 or both, and
//! stacks that are too narrow.

use independent::job::{Job, Run};

use super::{with_runs, worked_run};
use crate::site::{give_points, shape};

/// Both of 24 in.
const ROUND: [u16; 2] = [240, 0];
const RECTANGULAR: [u16; 2] = [200, 300];

pub fn jobs() -> Vec<(&'static str, Job)> {
    vec![
        ("round stacks", with_runs(stacks(ROUND))),
        ("rectangular stacks", with_runs(stacks(RECTANGULAR))),
        (
            "narrow stacks",
            with_runs([
                stack([119, 0], [480, 1_920], 8),
                stack([100, 149], [480, 1_920], 9),
                stack([1, 0], [0, 0], 1),
                stack([1, 1], [0, 0], 1),
            ]),
        ),
        (
            "widest stacks",
            with_runs([
                stack([9_999, 0], [0, 0], 64),
                stack([9_999, 9_999], [4_999, 19_997], 64),
                stack([9_999, 1], [0, 1], 50),
            ]),
        ),
    ]
}

/// Half a diameter is 12 in and two are 48; from 48 and 192 on a site is undisturbed.
fn stacks(sides: [u16; 2]) -> Vec<Run> {
    [
        ([119, 480], 24),
        ([120, 479], 25),
        ([119, 479], 10),
        ([480, 1_920], 10),
        ([480, 1_920], 4),
        ([480, 1_919], 8),
        ([480, 1_919], 9),
        ([479, 1_920], 12),
        ([480, 1_919], 63),
        ([480, 1_919], 50),
        ([480, 1_919], 1),
        ([180, 1_920], 16),
        ([180, 1_920], 30),
    ]
    .map(|(disturbances, points)| stack(sides, disturbances, points))
    .to_vec()
}

/// The worked run in such a stack, with the next and the last disturbance there, and so
/// many points.
fn stack(sides: [u16; 2], [next, last]: [u16; 2], points: u16) -> Run {
    let mut run = Run {
        shape: shape(sides),
        sides,
        to_next_disturbance: next,
        from_last_disturbance: last,
        ..worked_run()
    };
    give_points(&mut run, points);
    run
}
