//! Both layouts, against lists written out and against the independent program.

use crate::run::{ended, leverbonnet, Ended};

fn layout(words: &str) -> Ended {
    ended(leverbonnet(&["layout"]).args(words.split(' ')))
}

/// The points of the independent program as a list.
fn list(points: &[Vec<u32>]) -> String {
    let mut text = String::new();
    for (index, distances) in points.iter().enumerate() {
        text += &(index + 1).to_string();
        for distance in distances {
            text += &format!(" {distance}");
        }
        text += "\n";
    }
    text
}

#[test]
fn six_points_of_a_round_stack() {
    let printed = layout("round 6 240 250");
    assert_eq!(
        printed.out,
        "1 1056\n2 3504\n3 7104\n4 16896\n5 20496\n6 22944\n"
    );
    assert_eq!(printed.status, 0);
}

#[test]
fn points_nearer_to_the_wall_than_the_nozzle_are_moved() {
    let printed = layout("round 6 120 1000");
    assert_eq!(
        printed.out,
        "1 1000\n2 1752\n3 3552\n4 8448\n5 10248\n6 11000\n"
    );
}

#[test]
fn the_larger_count_of_cells_is_on_the_longer_side() {
    let first_longer = layout("rect 12 400 300");
    assert_eq!(
        first_longer.out,
        "1 5000 5000\n2 15000 5000\n3 25000 5000\n4 35000 5000\n\
         5 5000 15000\n6 15000 15000\n7 25000 15000\n8 35000 15000\n\
         9 5000 25000\n10 15000 25000\n11 25000 25000\n12 35000 25000\n"
    );
    let second_longer = layout("rect 12 300 400");
    assert_eq!(
        second_longer.out,
        "1 5000 5000\n2 15000 5000\n3 25000 5000\n\
         4 5000 15000\n5 15000 15000\n6 25000 15000\n\
         7 5000 25000\n8 15000 25000\n9 25000 25000\n\
         10 5000 35000\n11 15000 35000\n12 25000 35000\n"
    );
}

#[test]
fn every_round_layout_is_that_of_the_independent_program() {
    for points in (2..=24).step_by(2) {
        for (diameter, nozzle) in [(120, 100), (240, 250), (241, 250), (9_999, 1_000)] {
            let printed = layout(&format!("round {points} {diameter} {nozzle}"));
            let expected = independent::round_distances(points, diameter, nozzle);
            let expected = expected.expect("it is within its ranges");
            let expected: Vec<Vec<u32>> = expected.into_iter().map(|one| vec![one]).collect();
            assert_eq!((printed.out, printed.status), (list(&expected), 0));
        }
    }
}

#[test]
fn every_rectangular_layout_is_that_of_the_independent_program() {
    for points in [9, 12, 16, 20, 25, 30, 36, 42, 49] {
        for (first, second) in [(120, 120), (61, 9_999), (777, 301), (9_999, 9_998)] {
            let printed = layout(&format!("rect {points} {first} {second}"));
            let expected = independent::rect_distances(points, first, second);
            let expected = expected.expect("it is within its ranges");
            let expected: Vec<Vec<u32>> = expected.into_iter().map(|two| two.to_vec()).collect();
            assert_eq!((printed.out, printed.status), (list(&expected), 0));
        }
    }
}

#[test]
fn a_layout_outside_its_ranges_is_refused() {
    for words in [
        "round 0 240 250",
        "round 7 240 250",
        "round 26 240 250",
        "round 6 119 250",
        "round 6 10000 250",
        "round 6 240 99",
        "round 6 240 1001",
        "round 65535 65535 65535",
        "rect 10 400 300",
        "rect 9 0 300",
        "rect 9 400 10000",
        "rect 9 60 9999",
        "round 7 240 250 --svg",
    ] {
        let refused = layout(words);
        assert_eq!(
            (refused.out.as_str(), refused.status),
            ("REFUSED 11 0\n", 2)
        );
        let told: Vec<&str> = refused.told.lines().collect();
        let sentence = "leverbonnet: refused, the layout is outside its ranges (11).";
        assert_eq!(told[1..], [sentence], "{words}");
    }
}

#[test]
fn what_was_understood_is_said_on_standard_error() {
    for (words, understood) in [
        (
            "round 6 240 250",
            "round, 6 points, diameter 24.0 in, nozzle 0.250 in\n",
        ),
        (
            "round 6 24in 0.25in --svg",
            "round, 6 points, diameter 24.0 in, nozzle 0.250 in\n",
        ),
        (
            "rect 12 400 300",
            "rectangular, 12 points, first side 40.0 in, second side 30.0 in\n",
        ),
    ] {
        assert_eq!(layout(words).told, understood, "{words}");
    }
}

#[test]
fn inches_are_the_bare_numbers_they_come_out_as() {
    for (inches, bare) in [
        ("round 6 24in 0.25in", "round 6 240 250"),
        ("round 8 24.0in 0.250in", "round 8 240 250"),
        ("round 8 99.9in 1in", "round 8 999 1000"),
        ("rect 12 40in 30.5in", "rect 12 400 305"),
        ("rect 12 40.00in 305", "rect 12 400 305"),
    ] {
        assert_eq!(layout(inches), layout(bare), "{inches}");
    }
}

#[test]
fn a_size_that_is_not_understood_is_a_complaint() {
    for (words, sentence) in [
        ("round 6 24.05in 250", "steps of 0.1 in"),
        ("round 6 240 0.2505in", "steps of 0.001 in"),
        ("round 6 24.0 250", "write 24.0in for inches"),
        ("rect 9 40in 30.0", "write 30.0in for inches"),
        ("rect 9 .5in 300", "the first side .5in is neither"),
        ("rect 9 24.in 300", "the first side 24.in is neither"),
        ("rect 9 400 30ft", "the second side 30ft is neither"),
        ("rect 9 400 6553.6in", "is above the greatest"),
        ("round 6 65536 250", "is above the greatest"),
        ("round 6in 240 250", "the number of points 6in"),
        ("round 6 24 in 0.25in", "0.25in is one word too many"),
    ] {
        layout(words).assert_one_sentence(1, sentence);
    }
}
