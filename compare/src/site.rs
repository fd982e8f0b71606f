//! Where a stack's disturbances are, counted in its diameters, and how many points it is
//! given.

use independent::job::{Point, Run, Segment, Shape};

/// The most that the points of a run may last together, in seconds.
const LONGEST_RUN: u16 = 36_000;

/// That of a stack with these sides: a round one has no second.
pub fn shape(sides: [u16; 2]) -> Shape {
    match sides[1] {
        0 => Shape::Round,
        _ => Shape::Rectangular,
    }
}

/// Numerator and denominator, 0.1 in.
pub fn diameter(run: &Run) -> (i64, i64) {
    let [first, second] = run.sides.map(i64::from);
    match run.shape {
        Shape::Round => (first, 1),
        Shape::Rectangular => (2 * first * second, first + second),
    }
}

/// The least whole distance that is not nearer than so many hundredths of a diameter. It
/// may be more than a job can hold.
pub fn least_reaching(run: &Run, hundredths: u16) -> i64 {
    let (numerator, denominator) = diameter(run);
    let parts = 100 * denominator;
    (i64::from(hundredths) * numerator + parts - 1) / parts
}

/// Gives the run so many points like its first, and one tight segment.
pub fn give_points(run: &mut Run, count: u16) {
    let first = run.points[0];
    let seconds = first.seconds.min(LONGEST_RUN / count);
    run.points = vec![Point { seconds, ..first }; usize::from(count)];
    let seconds = seconds * count;
    run.segments = vec![Segment { seconds, leak: 0 }];
}
