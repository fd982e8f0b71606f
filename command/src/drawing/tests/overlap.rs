//! Nothing is cut off, and nothing stands in the way of a text.

use super::apart::{cross, distance, is_clear};
use super::layouts::{rectangular_layouts, round_layouts, Layout};
use crate::drawing::page::{Part, Pen, Place, Shape, BOTTOM, DOT, LEFT, RIGHT, TOP};
use crate::drawing::text::{Room, Text};

/// What is at least between a text and anything else.
const CLEARANCE: f64 = 1.2;
/// For what is rounded in calculating.
const LITTLE: f64 = 1e-6;

/// The shapes of a page by their kinds.
struct Sorted<'a> {
    texts: Vec<(&'a Text, Room)>,
    others: Vec<&'a Shape>,
    dots: Vec<Place>,
    leaders: Vec<(Place, Place)>,
}

impl<'a> Sorted<'a> {
    fn of(page: &'a [Part]) -> Sorted<'a> {
        let mut sorted = Sorted {
            texts: Vec::new(),
            others: Vec::new(),
            dots: Vec::new(),
            leaders: Vec::new(),
        };
        for shape in page.iter().flat_map(|part| &part.shapes) {
            match shape {
                Shape::Text(text) => sorted.texts.push((text, text.room())),
                other => sorted.others.push(other),
            }
            match *shape {
                Shape::Dot(place) => sorted.dots.push(place),
                Shape::Line {
                    from,
                    to,
                    pen: Pen::Leader,
                } => sorted.leaders.push((from, to)),
                _ => (),
            }
        }
        sorted
    }

    fn assert_in_order(&self, layout: Layout) {
        self.assert_within_the_page(layout);
        self.assert_texts_are_clear(layout);
        self.assert_dots_are_apart(layout);
        self.assert_leaders_do_not_cross(layout);
    }

    fn assert_within_the_page(&self, layout: Layout) {
        for (text, room) in &self.texts {
            let within = room.is_within(LEFT, TOP, RIGHT, BOTTOM);
            assert!(within, "{layout}: {:?} is cut off", text.words);
        }
        for shape in &self.others {
            assert!(is_within_the_page(shape), "{layout} is cut off");
        }
    }

    fn assert_texts_are_clear(&self, layout: Layout) {
        for (index, (text, room)) in self.texts.iter().enumerate() {
            for (other, its_room) in &self.texts[..index] {
                let clear = room.distance(its_room) > CLEARANCE - LITTLE;
                let (one, other) = (&text.words, &other.words);
                assert!(clear, "{layout}: {one:?} meets {other:?}");
            }
            for shape in &self.others {
                let clear = is_clear(shape, room, CLEARANCE - LITTLE);
                assert!(clear, "{layout}: {:?} meets a line or dot", text.words);
            }
        }
    }

    fn assert_dots_are_apart(&self, layout: Layout) {
        for (index, one) in self.dots.iter().enumerate() {
            for other in &self.dots[..index] {
                let distance = (one.x - other.x).hypot(one.y - other.y);
                assert!(distance > 2.0 * DOT, "{layout}: two dots meet");
            }
        }
    }

    fn assert_leaders_do_not_cross(&self, layout: Layout) {
        for (index, one) in self.leaders.iter().enumerate() {
            for other in &self.leaders[..index] {
                assert!(!cross(*one, *other), "{layout}: two leaders cross");
            }
            for dot in &self.dots {
                let clear = distance(*dot, one.0, one.1) > DOT - LITTLE;
                assert!(clear, "{layout}: a leader crosses a dot");
            }
        }
    }
}

fn is_within_the_page(shape: &Shape) -> bool {
    let room = match *shape {
        Shape::Line { from, to, .. } => Room {
            left: from.x.min(to.x),
            top: from.y.min(to.y),
            right: from.x.max(to.x),
            bottom: from.y.max(to.y),
        },
        Shape::Circle { center, radius, .. } => around(center, radius),
        Shape::Dot(center) => around(center, DOT),
        Shape::Rectangle {
            corner, wide, high, ..
        } => Room {
            left: corner.x,
            top: corner.y,
            right: corner.x + wide,
            bottom: corner.y + high,
        },
        Shape::Text(_) => return true,
    };
    room.is_within(LEFT, TOP, RIGHT, BOTTOM)
}

fn around(center: Place, radius: f64) -> Room {
    Room {
        left: center.x - radius,
        top: center.y - radius,
        right: center.x + radius,
        bottom: center.y + radius,
    }
}

/// The dots of a page lie inside its walls.
fn assert_dots_are_inside(layout: Layout, page: &[Part]) {
    let sorted = Sorted::of(page);
    let inside = sorted.others.iter().find_map(|shape| match shape {
        Shape::Circle {
            center,
            radius,
            pen: Pen::Inside,
        } => Some((*center, *radius)),
        _ => None,
    });
    let (center, radius) = inside.expect("a round stack has a wall");
    for dot in sorted.dots {
        let way = (dot.x - center.x).hypot(dot.y - center.y);
        let clear = way + DOT < radius - Pen::Inside.width() / 2.0;
        assert!(clear, "{layout}: a dot meets the wall");
    }
}

#[test]
fn nothing_overlaps_on_the_page_of_a_round_stack() {
    let layouts = round_layouts();
    assert!(layouts.len() > 3_000, "{} layouts", layouts.len());
    for layout in layouts {
        let page = layout.page();
        Sorted::of(&page).assert_in_order(layout);
        assert_dots_are_inside(layout, &page);
    }
}

#[test]
fn nothing_overlaps_on_the_page_of_a_rectangular_stack() {
    let layouts = rectangular_layouts();
    assert!(layouts.len() > 3_000, "{} layouts", layouts.len());
    for layout in layouts {
        Sorted::of(&layout.page()).assert_in_order(layout);
    }
}
