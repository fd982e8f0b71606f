//! What the fifth place of the roots gives a slow stack: line 15 of the worked run
//! with every head a few thousandths, as it was from roots in the fourth place, as
//! it is, and as it would be if no root of a head were rounded.

use independent::{samples, work, Lines};

struct Row {
    head: u16,
    fourth_place: i64,
    fifth_place: i64,
    exact: f64,
}

const fn row(head: u16, fourth_place: i64, fifth_place: i64, exact: f64) -> Row {
    Row {
        head,
        fourth_place,
        fifth_place,
        exact,
    }
}

const TABLE: [Row; 5] = [
    row(1, 1_984, 1_985, 1_984.98),
    row(2, 2_806, 2_807, 2_807.18),
    row(3, 3_440, 3_438, 3_438.08),
    row(5, 4_438, 4_439, 4_438.55),
    row(10, 6_277, 6_277, 6_277.05),
];

/// 8,549·Cp, Cp being the worked job's.
const SCALE: f64 = 8_549.0 * 840.0;

#[test]
fn velocities_of_slow_stacks() {
    for row in TABLE {
        let lines = lines_at(row.head);
        assert_eq!(lines.line(15), Some(row.fifth_place), "head {}", row.head);
        assert_eq!(in_fourth_place(&lines, row.head), row.fourth_place);
        let exact = exact_velocity(&lines, row.head);
        assert!((exact - row.exact).abs() < 0.005, "{exact}");
    }
}

/// Half a unit from its own rounding, and a third of one from the root's.
#[test]
fn every_slow_velocity_is_within_a_unit_of_the_exact_one() {
    for head in 1..=100 {
        let lines = lines_at(head);
        let velocity = lines.line(15).unwrap() as f64;
        assert!((velocity - exact_velocity(&lines, head)).abs() < 1.0);
    }
}

fn lines_at(head: u16) -> Lines {
    let mut job = samples::worked();
    let points = job.runs[0].points.iter_mut();
    points.for_each(|p| p.velocity_head = head);
    work(None, &job, &job.runs[0]).lines
}

/// Line 15 from a root in the fourth place, over 10^10, as it was.
fn in_fourth_place(lines: &Lines, head: u16) -> i64 {
    let root = (100_000.0 * f64::from(head)).sqrt().round();
    (SCALE * root * density_root(lines) / 1e10).round() as i64
}

/// Line 15's equation with the root of the head not rounded, from line 14 as it is.
fn exact_velocity(lines: &Lines, head: u16) -> f64 {
    SCALE * (1e7 * f64::from(head)).sqrt() * density_root(lines) / 1e11
}

fn density_root(lines: &Lines) -> f64 {
    lines.line(14).unwrap() as f64
}
