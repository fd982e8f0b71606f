//! How long something is: a line from end to end, and the size beside it.

use super::page::{at, line, Pen, Shape};
use super::text::{Text, NAME};

/// How far the ends of the line are drawn to both sides.
const HALF_END: f64 = 4.0;
/// From the line to the middle of the text.
const BESIDE: f64 = 9.0;

/// From the line to the far edge of the text.
pub const THICKNESS: f64 = BESIDE + 0.55 * NAME;

/// From one x to another at the height y; the text below.
pub fn across(from: f64, to: f64, y: f64, words: String) -> Vec<Shape> {
    let end = |x: f64| line(at(x, y - HALF_END), at(x, y + HALF_END), Pen::Size);
    vec![
        line(at(from, y), at(to, y), Pen::Size),
        end(from),
        end(to),
        Text::new(words, NAME).centered(at((from + to) / 2.0, y + BESIDE)),
    ]
}

/// From one y to another at x; the text to the right, turned.
pub fn down(from: f64, to: f64, x: f64, words: String) -> Vec<Shape> {
    let end = |y: f64| line(at(x - HALF_END, y), at(x + HALF_END, y), Pen::Size);
    let text = Text::new(words, NAME).turned();
    vec![
        line(at(x, from), at(x, to), Pen::Size),
        end(from),
        end(to),
        text.centered(at(x + BESIDE, (from + to) / 2.0)),
    ]
}
