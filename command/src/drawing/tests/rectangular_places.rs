//! Every point of a rectangular stack is drawn at its place with its number and
//! its distances, and every row has its port.

use super::layouts::{rectangular_layouts, Layout};
use super::picked::{dot, inches, line, middle, near, part, text};
use crate::drawing::page::{Part, Pen, Place, Shape};
use crate::drawing::text::{Room, Text};

/// The inside of the walls as it is drawn: that of the left and of the top wall
/// by the lines that mark them as zero walls.
fn inside(page: &[Part]) -> Room {
    let walls = part(page, "walls").iter();
    let zeros: Vec<(Place, Place)> = walls.filter_map(|one| line(one, Pen::Zero)).collect();
    let (top, left) = (zeros[0], zeros[1]);
    Room {
        left: left.0.x,
        top: top.0.y,
        right: top.1.x,
        bottom: left.1.y,
    }
}

/// The sides, 0.001 in.
fn sides(layout: Layout) -> (f64, f64) {
    match layout {
        Layout::Rectangular(_, first, second) => {
            (f64::from(first) * 100.0, f64::from(second) * 100.0)
        }
        Layout::Round(..) => panic!("{layout} has no sides"),
    }
}

/// Units on the page for 0.001 in, across and down, of walls with that inside.
fn scales(layout: Layout, inside: &Room) -> (f64, f64) {
    let (first, second) = sides(layout);
    let (wide, high) = (inside.right - inside.left, inside.bottom - inside.top);
    (wide / first, high / second)
}

#[test]
fn each_point_stands_at_its_distances_with_both_below_it() {
    for layout in rectangular_layouts() {
        let page = layout.page();
        let inside = inside(&page);
        let (across, down) = scales(layout, &inside);
        let centers = layout.centers();
        let points: Vec<&[Shape]> = part(&page, "points").chunks(4).collect();
        assert_eq!(points.len(), centers.len(), "{layout}");
        for (index, (point, center)) in points.iter().zip(centers).enumerate() {
            let dot = dot(&point[0]).expect("a point begins with its dot");
            let x = inside.left + f64::from(center[0]) * across;
            let y = inside.top + f64::from(center[1]) * down;
            assert!(near(dot.x, x) && near(dot.y, y), "{layout}");
            let texts: Vec<&Text> = point.iter().filter_map(text).collect();
            let words: Vec<&str> = texts.iter().map(|text| text.words.as_str()).collect();
            let number = (index + 1).to_string();
            assert_eq!(words, [number, inches(center[0]), inches(center[1])]);
            assert_one_below_the_other(&texts, dot);
        }
    }
}

/// Number, dot, first distance, second distance.
fn assert_one_below_the_other(texts: &[&Text], dot: Place) {
    let rooms: Vec<Room> = texts.iter().map(|text| text.room()).collect();
    for room in &rooms {
        assert!(near(middle(room).x, dot.x));
    }
    assert!(rooms[0].bottom < dot.y);
    assert!(dot.y < rooms[1].top);
    assert!(rooms[1].bottom < rooms[2].top);
}

#[test]
fn each_row_has_its_port_at_its_height() {
    for layout in rectangular_layouts() {
        let page = layout.page();
        let dots = part(&page, "points").iter().filter_map(dot);
        let mut heights: Vec<f64> = dots.map(|dot| dot.y).collect();
        heights.dedup();
        let ports = part(&page, "ports").iter().filter_map(|shape| match shape {
            Shape::Rectangle { corner, high, .. } => Some(corner.y + high / 2.0),
            _ => None,
        });
        let ports: Vec<f64> = ports.collect();
        assert_eq!(ports.len(), heights.len(), "{layout}");
        for (port, height) in ports.iter().zip(heights) {
            assert!(near(*port, height), "{layout}");
        }
    }
}

#[test]
fn both_sides_have_one_scale_unless_the_caption_says_by_how_much_they_differ() {
    for layout in rectangular_layouts() {
        let page = layout.page();
        let (across, down) = scales(layout, &inside(&page));
        let caption: Vec<&str> = part(&page, "caption")
            .iter()
            .filter_map(|shape| text(shape).map(|text| text.words.as_str()))
            .collect();
        let said = caption.last().expect("there is a caption");
        let factor = said
            .split(" times")
            .next()
            .and_then(|words| words.rsplit(' ').next());
        let factor: Option<f64> = factor.and_then(|word| word.parse().ok());
        let drawn = (across / down).max(down / across);
        match factor {
            None => {
                assert_eq!(*said, "Drawn to scale.");
                assert!(near(drawn, 1.0), "{layout}");
            }
            Some(factor) => {
                let longer = if across > down { "first" } else { "second" };
                assert!(said.contains(&format!("the {longer} is drawn ")), "{said}");
                assert!(near(drawn, factor), "{layout}: {said}, not {drawn}");
            }
        }
    }
}
