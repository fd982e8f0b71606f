//! Every point of a round stack is drawn at its place, in the cross-section and
//! on the probe, and what is said of it is said there.

use super::layouts::{round_layouts, Layout};
use super::picked::{circle, dot, inches, line, middle, near, part, text};
use crate::drawing::page::{Part, Pen, Place, Shape, DOT};
use crate::drawing::text::Text;

/// From wall to wall, 0.001 in.
fn across(layout: Layout) -> f64 {
    match layout {
        Layout::Round(_, diameter, _) => f64::from(diameter) * 100.0,
        Layout::Rectangular(..) => panic!("{layout} has no diameter"),
    }
}

/// A number in the cross-section, and the leader behind it in the list.
struct Numbered<'a> {
    text: &'a Text,
    first: usize,
    last: usize,
    from: Place,
    to: Place,
}

fn numbered(section: &[Shape]) -> Vec<Numbered<'_>> {
    let pairs = section.windows(2).filter_map(|two| {
        let text = text(&two[0])?;
        let (from, to) = line(&two[1], Pen::Leader)?;
        let (first, last) = points(&text.words)?;
        Some(Numbered {
            text,
            first,
            last,
            from,
            to,
        })
    });
    pairs.collect()
}

/// The first and the last point of `3` or `1-4`; none of other words.
fn points(words: &str) -> Option<(usize, usize)> {
    let (first, last) = words.split_once('-').unwrap_or((words, words));
    Some((first.parse().ok()?, last.parse().ok()?))
}

/// The cross-section of a layout, as it is drawn.
struct Section<'a> {
    shapes: &'a [Shape],
    center: Place,
    radius: f64,
}

impl<'a> Section<'a> {
    fn of(page: &'a [Part]) -> Section<'a> {
        let shapes = part(page, "cross-section");
        let mut walls = shapes.iter().filter_map(|shape| circle(shape, Pen::Inside));
        let (center, radius) = walls.next().expect("a round stack has a wall");
        Section {
            shapes,
            center,
            radius,
        }
    }

    /// The dot that a leader begins at.
    fn dot(&self, leader: Place) -> Option<Place> {
        let mut dots = self.shapes.iter().filter_map(dot);
        dots.find(|dot| near((dot.x - leader.x).hypot(dot.y - leader.y), DOT))
    }

    /// How far a dot is from the port's wall, on A or on B.
    fn along(&self, dot: Place) -> (f64, Diameter) {
        let (on_a, on_b) = (near(dot.y, self.center.y), near(dot.x, self.center.x));
        match (on_a, on_b) {
            (true, false) => (dot.x - (self.center.x - self.radius), Diameter::A),
            (false, true) => (self.center.y + self.radius - dot.y, Diameter::B),
            _ => panic!("{dot:?} lies on one diameter"),
        }
    }
}

#[derive(Clone, Copy, PartialEq, Eq)]
enum Diameter {
    A,
    B,
}

#[test]
fn each_number_leads_from_the_dot_of_its_points() {
    for layout in round_layouts() {
        let page = layout.page();
        let section = Section::of(&page);
        let distances = layout.distances();
        let scale = 2.0 * section.radius / across(layout);
        for Numbered {
            text,
            first,
            last,
            from,
            to,
        } in numbered(section.shapes)
        {
            let dot = section.dot(from).expect("a leader begins at a dot");
            let (near_end, far_end) = (distances[first - 1], distances[last - 1]);
            let place = f64::from(near_end + far_end) / 2.0 * scale;
            assert!(near(section.along(dot).0, place), "{layout}: {first}");
            let joined = f64::from(far_end - near_end) * scale < 2.0 * DOT + 1.0;
            assert!(joined, "{layout}: {first} and {last} are far apart");
            let gap = text.room().distance_to(to);
            assert!(gap < 2.0, "{layout}: the leader of {first} misses it");
        }
    }
}

#[test]
fn each_point_has_its_number_on_both_diameters() {
    for layout in round_layouts() {
        let page = layout.page();
        let section = Section::of(&page);
        let expected: Vec<usize> = (1..=layout.distances().len()).collect();
        let numbered = numbered(section.shapes);
        let dots = section.shapes.iter().filter_map(dot).count();
        assert_eq!(dots, numbered.len(), "{layout}");
        for diameter in [Diameter::A, Diameter::B] {
            let is_on = |one: &&Numbered| {
                let dot = section.dot(one.from).expect("a leader begins at a dot");
                section.along(dot).1 == diameter
            };
            let on = numbered.iter().filter(is_on);
            let mut numbers: Vec<usize> = on.flat_map(|one| one.first..=one.last).collect();
            numbers.sort_unstable();
            assert_eq!(numbers, expected, "{layout}");
        }
    }
}

/// The x of the zero wall and of the far wall on the probe.
fn ends(page: &[Part]) -> (f64, f64) {
    let upright = |pen: Pen| {
        let mut lines = part(page, "probe").iter().filter_map(|one| line(one, pen));
        lines.next().expect("the probe ends at walls").0.x
    };
    (upright(Pen::Zero), upright(Pen::Inside))
}

#[test]
fn each_tick_stands_at_its_distance_and_leads_to_its_label() {
    for layout in round_layouts() {
        let page = layout.page();
        let (zero, far) = ends(&page);
        let scale = (far - zero) / across(layout);
        let distances = layout.distances();
        let points: Vec<&[Shape]> = part(&page, "points").chunks(4).collect();
        assert_eq!(points.len(), distances.len(), "{layout}");
        for (index, (point, distance)) in points.iter().zip(distances).enumerate() {
            let (top, foot) = line(&point[0], Pen::Tick).expect("a tick");
            let place = zero + f64::from(distance) * scale;
            assert!(near(top.x, place) && near(foot.x, place), "{layout}");
            let (from, to) = line(&point[1], Pen::Leader).expect("a leader");
            assert_eq!(from, top, "{layout}");
            let words = [(index + 1).to_string(), inches(distance)];
            for (shape, words) in point[2..].iter().zip(words) {
                let text = text(shape).expect("a number and a distance");
                assert_eq!(text.words, words, "{layout}");
                assert!(near(middle(&text.room()).x, to.x), "{layout}");
            }
        }
    }
}
