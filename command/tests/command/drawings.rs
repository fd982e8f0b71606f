//! `layout .. --svg`: a page with every point and every distance of the list.

mod svg;

use crate::folder::example_bytes;
use crate::run::{ended, leverbonnet};
use svg::Svg;

const GRIDS: [u16; 9] = [9, 12, 16, 20, 25, 30, 36, 42, 49];

fn printed(words: &str) -> String {
    let printed = ended(leverbonnet(&["layout"]).args(words.split(' ')));
    assert_eq!(printed.status, 0, "{words}: {printed:?}");
    printed.out
}

fn drawing(words: &str) -> Svg {
    Svg::read(printed(&format!("{words} --svg")))
}

/// Every count of points with several sizes. At 12 in points coincide at the
/// margin, and at 31.3 in they stand 0.002 in apart there.
fn round() -> Vec<String> {
    let sizes = [
        "120 100", "120 1000", "240 250", "241 250", "313 1000", "9999 100",
    ];
    let of_count = |count: u16| sizes.map(|sizes| format!("round {count} {sizes}"));
    (2..=24).step_by(2).flat_map(of_count).collect()
}

/// Every grid with several sizes.
fn rectangular() -> Vec<String> {
    let sizes = [
        "120 120", "400 300", "300 400", "900 300", "61 9999", "9999 61",
    ];
    let of_grid = |grid: &u16| sizes.map(|sizes| format!("rect {grid} {sizes}"));
    GRIDS.iter().flat_map(of_grid).collect()
}

/// Every fifth of them: each size and most counts are among them. Starting the
/// command takes long where the proved calls go over a pipe to an emulator.
fn fewer(layouts: Vec<String>) -> impl Iterator<Item = String> {
    layouts.into_iter().step_by(5)
}

/// The list's lines as a drawing shows them: number, and distances in inches.
fn listed(words: &str) -> Vec<String> {
    let list = printed(words);
    let mut shown = Vec::new();
    for line in list.lines() {
        let (number, distances) = line.split_once(' ').expect("a point has a distance");
        shown.push(number.into());
        for distance in distances.split(' ') {
            let distance: f64 = distance.parse().expect("it is a number");
            shown.push(format!("{:.3}", distance / 1_000.0));
        }
    }
    shown
}

/// The distances in a list, 0.001 in, those of a point together.
fn distances(words: &str) -> Vec<Vec<f64>> {
    let numbers = |line: &str| -> Vec<f64> {
        let distances = line.split(' ').skip(1);
        distances
            .map(|one| one.parse().expect("it is a number"))
            .collect()
    };
    printed(words).lines().map(numbers).collect()
}

/// A size in the words, 0.001 in.
fn size(words: &str, index: usize) -> f64 {
    let word = words.split(' ').nth(index).expect("it is given");
    word.parse::<f64>().expect("it is a number") * 100.0
}

/// Places are written with two decimals.
fn near(one: f64, other: f64) -> bool {
    (one - other).abs() < 0.011
}

#[test]
fn a_drawing_is_well_formed() {
    for words in ["round 24 9999 1000", "round 2 120 100", "rect 49 9999 61"] {
        drawing(words).assert_well_formed();
    }
}

#[test]
fn a_drawing_is_a_letter_page() {
    for words in ["round 6 240 250", "rect 49 61 9999"] {
        let page = "<svg xmlns=\"http://www.w3.org/2000/svg\" width=\"8.5in\" height=\"11in\" \
                    viewBox=\"0 0 612 792\" font-family=\"monospace\"";
        assert!(drawing(words).text.starts_with(page), "{words}");
    }
}

#[test]
fn a_drawing_is_black_and_gray() {
    for words in ["round 24 120 1000", "rect 12 400 300"] {
        let drawing = drawing(words);
        for tag in drawing.tags() {
            for attribute in ["stroke", "fill"] {
                let color = tag.value(attribute).unwrap_or("none");
                let colors = ["none", "black", "gray", "silver", "white"];
                assert!(colors.contains(&color), "{words}: {color}");
            }
        }
    }
}

#[test]
fn every_distance_of_the_list_is_on_the_drawing() {
    for words in round().into_iter().chain(rectangular()) {
        let drawing = drawing(&words);
        assert_eq!(drawing.texts("points"), listed(&words), "{words}");
    }
}

#[test]
fn every_tick_stands_at_its_distance() {
    for words in fewer(round()) {
        let drawing = drawing(&words);
        let [zero, far] = drawing.probe();
        let scale = (far - zero) / size(&words, 2);
        let ticks = drawing.lines("points", "1.2");
        let distances = distances(&words);
        assert_eq!(ticks.len(), distances.len(), "{words}");
        for (tick, distance) in ticks.iter().zip(distances) {
            assert!(near(tick[0], zero + distance[0] * scale), "{words}");
        }
    }
}

#[test]
fn every_point_has_a_dot_on_both_diameters() {
    // Points share a dot where theirs would be less than 6 apart.
    const JOINED: f64 = 6.0;
    for words in fewer(round()) {
        let drawing = drawing(&words);
        let [x, y, radius] = drawing.circles("cross-section", "1")[0];
        let scale = 2.0 * radius / size(&words, 2);
        let dots = drawing.dots("cross-section");
        let places: Vec<f64> = distances(&words).iter().map(|one| one[0] * scale).collect();
        for place in places {
            let is_at = |along: f64| (along - place).abs() < JOINED / 2.0 + 0.011;
            let on_a = |dot: &[f64; 2]| near(dot[1], y) && is_at(dot[0] - (x - radius));
            let on_b = |dot: &[f64; 2]| near(dot[0], x) && is_at(y + radius - dot[1]);
            assert!(dots.iter().any(on_a), "{words}: {place} on A");
            assert!(dots.iter().any(on_b), "{words}: {place} on B");
        }
    }
}

#[test]
fn every_dot_of_a_grid_stands_at_its_distances() {
    for words in fewer(rectangular()) {
        let drawing = drawing(&words);
        let [left, top, wide, high] = drawing.rectangles("walls", "1")[0];
        let (across, down) = (wide / size(&words, 2), high / size(&words, 3));
        let dots = drawing.dots("points");
        let distances = distances(&words);
        assert_eq!(dots.len(), distances.len(), "{words}");
        for (dot, distance) in dots.iter().zip(distances) {
            assert!(near(dot[0], left + distance[0] * across), "{words}");
            assert!(near(dot[1], top + distance[1] * down), "{words}");
        }
    }
}

#[test]
fn ports_and_zero_walls_are_named() {
    let round = drawing("round 6 240 250");
    let names = round.texts("cross-section");
    for name in ["port A", "port B"] {
        assert!(names.iter().any(|one| one == name), "{names:?}");
    }
    let zero_walls = names.iter().filter(|name| *name == "zero wall");
    assert_eq!(zero_walls.count(), 2);
    assert_eq!(
        round.texts("probe")[1..],
        ["port", "zero wall", "far wall", "diameter 24.0 in"]
    );
    let grid = drawing("rect 12 400 300");
    assert_eq!(grid.texts("ports"), ["port 1", "port 2", "port 3"]);
    assert_eq!(
        grid.texts("walls"),
        [
            "zero wall, first side",
            "zero wall, second side",
            "first side 40.0 in",
            "second side 30.0 in"
        ]
    );
}

#[test]
fn a_round_drawing_says_what_it_shows() {
    assert_eq!(
        drawing("round 6 24in 0.25in").texts("caption"),
        [
            "Round stack, diameter 24.0 in, nozzle 0.250 in, 6 points on each of 2 diameters",
            "Distances are in inches from the zero wall, which is the inside of the wall at the \
             port.",
            "The dashed circle is the nearest to the wall that a point may stand, 0.500 in from \
             it."
        ]
    );
}

#[test]
fn a_rectangular_drawing_says_what_it_shows() {
    assert_eq!(
        drawing("rect 12 40in 30in").texts("caption"),
        [
            "Rectangular stack, first side 40.0 in (across), second side 30.0 in (down), 12 points",
            "Under each point: its distance along the first side, then that along the second, in \
             inches.",
            "They are measured from the zero walls, drawn heavy: the insides of the left and the \
             top wall.",
            "Each row has its port in the left wall: points 1 to 4 are reached through port 1, \
             and so on.",
            "Drawn to scale."
        ]
    );
}

#[test]
fn a_drawing_that_is_not_to_scale_says_so() {
    for (words, sentence) in [
        ("rect 49 120 120", "Drawn to scale."),
        (
            "rect 49 61 9999",
            "Not to scale: compared with the second side, the first is drawn 95 times as long as \
             it is.",
        ),
        (
            "rect 49 9999 61",
            "Not to scale: compared with the first side, the second is drawn 139 times as long as \
             it is.",
        ),
    ] {
        let caption = drawing(words).texts("caption");
        assert_eq!(caption.last().map(String::as_str), Some(sentence));
    }
}

/// The caption after its first three lines, in one line.
fn remarks(words: &str) -> String {
    drawing(words).texts("caption")[3..].join(" ")
}

#[test]
fn points_that_coincide_are_named() {
    assert_eq!(
        remarks("round 24 120 1000"),
        "Points 1 to 4 coincide, 1.000 in from the zero wall; points 21 to 24 coincide, 11.000 in \
         from it: the margin keeps them there."
    );
    assert_eq!(
        remarks("round 24 313 1000"),
        "Points 1 and 2 are drawn as one mark in the cross-section, and so are points 23 and 24."
    );
    assert_eq!(remarks("round 24 9999 100"), "");
}

#[test]
fn coincidence_is_said_exactly_where_there_is_one() {
    for words in fewer(round()) {
        let distances = distances(&words);
        let coincides = distances.windows(2).any(|two| two[0] == two[1]);
        let said = remarks(&words).contains(" coincide, ");
        assert_eq!(said, coincides, "{words}");
    }
}

#[test]
fn the_dashed_circle_is_the_nearest_that_a_point_may_stand_to_the_wall() {
    for (words, margin) in [
        ("round 6 240 250", 500.0),
        ("round 6 240 600", 600.0),
        ("round 6 241 250", 1_000.0),
    ] {
        let drawing = drawing(words);
        let wall = drawing.circles("cross-section", "1")[0];
        let dashed = drawing.circles("cross-section", "0.7")[0];
        let radius = wall[2] - margin * 2.0 * wall[2] / size(words, 2);
        assert!(near(dashed[2], radius), "{words}");
        assert_eq!(dashed[..2], wall[..2], "{words}");
    }
}

#[test]
fn a_margin_that_is_too_thin_to_be_drawn_is_said() {
    let drawing = drawing("round 6 9999 100");
    assert_eq!(drawing.circles("cross-section", "0.7").len(), 0);
    assert_eq!(
        drawing.texts("caption")[2],
        "The nearest to the wall that a point may stand is 1.000 in: too near to be drawn here."
    );
}

#[test]
fn the_stored_drawings_are_printed() {
    for (words, name) in [
        ("round 6 24in 0.25in", "round.svg"),
        ("rect 12 40in 30in", "rect.svg"),
    ] {
        let stored = String::from_utf8(example_bytes(name)).expect("drawings are text");
        assert_eq!(printed(&format!("{words} --svg")), stored);
    }
}
