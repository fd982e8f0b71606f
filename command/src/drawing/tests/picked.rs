//! Shapes picked from a page.

use crate::drawing::page::{Part, Pen, Place, Shape};
use crate::drawing::text::{Room, Text};

pub fn part<'a>(page: &'a [Part], name: &str) -> &'a [Shape] {
    let part = page.iter().find(|part| part.name == name);
    &part.expect("the page has that part").shapes
}

pub fn text(shape: &Shape) -> Option<&Text> {
    match shape {
        Shape::Text(text) => Some(text),
        _ => None,
    }
}

pub fn dot(shape: &Shape) -> Option<Place> {
    match shape {
        Shape::Dot(place) => Some(*place),
        _ => None,
    }
}

/// The ends of a line that is drawn with that pen.
pub fn line(shape: &Shape, with: Pen) -> Option<(Place, Place)> {
    match *shape {
        Shape::Line { from, to, pen } if pen == with => Some((from, to)),
        _ => None,
    }
}

/// The middle and the radius of a circle that is drawn with that pen.
pub fn circle(shape: &Shape, with: Pen) -> Option<(Place, f64)> {
    match *shape {
        Shape::Circle {
            center,
            radius,
            pen,
        } if pen == with => Some((center, radius)),
        _ => None,
    }
}

pub fn middle(room: &Room) -> Place {
    Place {
        x: (room.left + room.right) / 2.0,
        y: (room.top + room.bottom) / 2.0,
    }
}

/// Equal but for what is rounded in calculating.
pub fn near(one: f64, other: f64) -> bool {
    (one - other).abs() < 1e-6
}

pub fn inches(thousandths: u32) -> String {
    format!("{:.3}", f64::from(thousandths) / 1_000.0)
}
