//! Refusal 14: what is said of the figure that it was given for.

use leverbonnet::{sheet_text_by_figure, Error, Refusal};

use crate::any_bytes::Numbers;
use crate::{changed, with_number};

/// Two steps from the last disturbance and three to the next, made up for these
/// tests.
const FIGURE: &[u8] = &[
    b'F', b'I', b'G', 1, 0, // header
    2, 0, 0, 40, 42, 0x2C, 1, 12, 12, // 0 and 300
    3, 50, 0, 36, 36, 100, 0, 20, 20, 200, 0, 8, 9, // 50, 100 and 200
];

/// Its fields in order of place: where each starts, and its name in a sentence.
const FIELDS: [(usize, &str); 19] = [
    (0, "the mark"),
    (3, "the version"),
    (5, "the number of steps from the last disturbance"),
    (
        6,
        "the least distance of the 1st step from the last disturbance",
    ),
    (
        8,
        "the points for a round stack of the 1st step from the last disturbance",
    ),
    (
        9,
        "the points for a rectangular stack of the 1st step from the last disturbance",
    ),
    (
        10,
        "the least distance of the 2nd step from the last disturbance",
    ),
    (
        12,
        "the points for a round stack of the 2nd step from the last disturbance",
    ),
    (
        13,
        "the points for a rectangular stack of the 2nd step from the last disturbance",
    ),
    (14, "the number of steps to the next disturbance"),
    (
        15,
        "the least distance of the 1st step to the next disturbance",
    ),
    (
        17,
        "the points for a round stack of the 1st step to the next disturbance",
    ),
    (
        18,
        "the points for a rectangular stack of the 1st step to the next disturbance",
    ),
    (
        19,
        "the least distance of the 2nd step to the next disturbance",
    ),
    (
        21,
        "the points for a round stack of the 2nd step to the next disturbance",
    ),
    (
        22,
        "the points for a rectangular stack of the 2nd step to the next disturbance",
    ),
    (
        23,
        "the least distance of the 3rd step to the next disturbance",
    ),
    (
        25,
        "the points for a round stack of the 3rd step to the next disturbance",
    ),
    (
        26,
        "the points for a rectangular stack of the 3rd step to the next disturbance",
    ),
];

/// A figure is judged before the job is read, which is empty here and so refused too.
fn refusal(figure: &[u8]) -> Option<Refusal> {
    match sheet_text_by_figure(figure, &[]) {
        Err(Error::Refused(refusal)) if refusal.is_about_the_figure() => Some(refusal),
        Err(Error::Refused(Refusal {
            number: 1,
            place: 0,
        })) => None,
        other => panic!("{other:?}"),
    }
}

fn told(figure: &[u8]) -> String {
    match refusal(figure) {
        Some(refusal) => {
            let (number, place) = (refusal.number, refusal.place);
            format!("{number} at {place}, {}", refusal.in_figure(figure))
        }
        None => "read".into(),
    }
}

/// The name of the field at that place.
fn name(place: usize) -> &'static str {
    let field = FIELDS.iter().find(|(start, _)| *start == place);
    field.expect("a field starts there").1
}

#[test]
fn every_truncation() {
    assert_eq!(told(FIGURE), "read");
    let ends = FIELDS[1..].iter().map(|(start, _)| *start);
    for ((start, name), end) in FIELDS.iter().zip(ends.chain([FIGURE.len()])) {
        let are = if name.contains("points") { "are" } else { "is" };
        for length in *start..end {
            let expected = format!("14 at {length}, the file ends before {name} {are} complete");
            assert_eq!(told(&FIGURE[..length]), expected);
        }
    }
}

#[test]
fn a_field_in_trouble_is_told_before_the_file_ends_early_behind_it() {
    assert_eq!(told(b"XIG"), "14 at 0, the mark is not FIG");
    assert_eq!(
        told(b"XI"),
        "14 at 2, the file ends before the mark is complete"
    );
    assert_eq!(
        told(b"FIG\x01"),
        "14 at 4, the file ends before the version is complete"
    );
    let figure = with_number(FIGURE, 10, 0);
    let expected = "14 at 10, the least distance of the 2nd step from the last disturbance is 0 \
                    and not above that of the step before, 0, in units of 0.01 diameter";
    assert_eq!(told(&figure), expected);
    assert_eq!(told(&figure[..12]), expected);
}

#[test]
fn each_field_out_of_its_range() {
    for (place, value, predicate) in [
        (0, b'f', "is not FIG"),
        (3, 2, "is 2 and not 1"),
        (5, 0, "is 0 and not in its range, 1 to 16"),
        (5, 17, "is 17 and not in its range, 1 to 16"),
        (8, 0, "are 0 and not in their range, 1 to 48"),
        (8, 49, "are 49 and not in their range, 1 to 48"),
        (9, 0, "are 0 and not in their range, 1 to 49"),
        (9, 50, "are 50 and not in their range, 1 to 49"),
        (12, 0, "are 0 and not in their range, 1 to 48"),
        (13, 0, "are 0 and not in their range, 1 to 49"),
        (14, 0, "is 0 and not in its range, 1 to 16"),
        (14, 255, "is 255 and not in its range, 1 to 16"),
        (17, 49, "are 49 and not in their range, 1 to 48"),
        (18, 50, "are 50 and not in their range, 1 to 49"),
        (25, 255, "are 255 and not in their range, 1 to 48"),
        (26, 255, "are 255 and not in their range, 1 to 49"),
    ] {
        let expected = format!("14 at {place}, {} {predicate}", name(place));
        assert_eq!(told(&changed(FIGURE, place, &[value])), expected);
    }
    let version = with_number(FIGURE, 3, 65_281);
    assert_eq!(told(&version), "14 at 3, the version is 65,281 and not 1");
}

#[test]
fn the_ends_of_each_range_are_read() {
    for (place, values) in [
        (6, &[0, 255][..]),
        (8, &[12, 48]),
        (9, &[12, 49]),
        (12, &[1, 40]),
        (13, &[1, 42]),
        (15, &[0, 99]),
        (17, &[20, 48]),
        (18, &[20, 49]),
        (25, &[1, 20]),
        (26, &[1, 20]),
    ] {
        for &value in values {
            assert_eq!(told(&changed(FIGURE, place, &[value])), "read");
        }
    }
}

#[test]
fn distances_that_do_not_rise() {
    for (place, before, distances) in [
        (10, "0", &[0][..]),
        (19, "50", &[0, 49, 50]),
        (23, "100", &[0, 99, 100]),
    ] {
        for &distance in distances {
            let expected = format!(
                "14 at {place}, {} is {distance} and not above that of the step before, {before}, \
                 in units of 0.01 diameter",
                name(place)
            );
            assert_eq!(told(&with_number(FIGURE, place, distance)), expected);
        }
    }
    let expected = format!(
        "14 at 19, {} is 100 and not above that of the step before, 65,535, in units of 0.01 \
         diameter",
        name(19)
    );
    assert_eq!(told(&with_number(FIGURE, 15, 65_535)), expected);
}

#[test]
fn points_that_rise() {
    for (place, before, points) in [
        (12, 40, &[41, 48][..]),
        (13, 42, &[43, 49]),
        (21, 36, &[37]),
        (22, 36, &[37]),
        (25, 20, &[21, 36]),
        (26, 20, &[21, 36]),
    ] {
        for &points in points {
            let expected = format!(
                "14 at {place}, {} are {points} and above those of the step before, {before}",
                name(place)
            );
            assert_eq!(told(&changed(FIGURE, place, &[points])), expected);
        }
    }
}

/// The first step to the next disturbance has none before it: it may have more points
/// than the last step from the last disturbance, and a least distance below its.
#[test]
fn each_list_rises_and_falls_for_itself() {
    assert!(FIGURE[17] > FIGURE[12] && FIGURE[18] > FIGURE[13]);
    assert_eq!(told(&with_number(FIGURE, 10, 65_535)), "read");
}

#[test]
fn bytes_left_over_are_counted_as_far_as_a_thousand() {
    for (count, left) in [
        (1, "1 byte is"),
        (2, "2 bytes are"),
        (999, "999 bytes are"),
        (1_000, "1,000 bytes or more are"),
        (100_000, "1,000 bytes or more are"),
    ] {
        let figure = [FIGURE, &vec![0; count]].concat();
        let length = FIGURE.len();
        let expected = format!("14 at {length}, {left} left over behind the last step");
        assert_eq!(told(&figure), expected);
    }
}

#[test]
fn the_longest_figure_has_135_bytes() {
    let steps: Vec<u8> = (0..16).flat_map(|step| [step, 0, 48, 49]).collect();
    let list = [&[16][..], &steps].concat();
    let figure = [b"FIG\x01\0", &list[..], &list].concat();
    assert_eq!((figure.len(), told(&figure)), (135, "read".into()));
    let last = changed(&figure, 131, &[14]);
    assert_eq!(
        told(&last),
        "14 at 131, the least distance of the 16th step to the next disturbance is 14 and not \
         above that of the step before, 14, in units of 0.01 diameter"
    );
}

#[test]
fn every_value_of_every_byte_gets_a_clause_of_its_own() {
    for place in 0..FIGURE.len() {
        for value in 0..=255 {
            let figure = changed(FIGURE, place, &[value]);
            if let Some(refusal) = refusal(&figure) {
                let clause = refusal.in_figure(&figure);
                assert_ne!(clause, refusal.cause(), "{refusal}");
            }
        }
    }
}

/// For a figure that is in order every refusal is another figure's, and every refusal
/// of a job is no figure's.
#[test]
fn a_refusal_of_another_figure_or_of_a_job_says_its_cause() {
    let with_equal_points = changed(FIGURE, 12, &[40, 42]);
    assert_eq!(told(&with_equal_points), "read");
    for number in 0..=15 {
        for place in 0..=FIGURE.len() as u32 + 2 {
            let refusal = Refusal { number, place };
            for figure in [FIGURE, &with_equal_points] {
                assert_eq!(refusal.in_figure(figure), refusal.cause(), "{refusal}");
            }
            if number != 14 {
                assert_eq!(refusal.in_figure(b"XIG"), refusal.cause(), "{refusal}");
            }
        }
    }
    let refusal = Refusal {
        number: 14,
        place: 0,
    };
    assert_eq!(refusal.in_job(b"XIG"), refusal.cause());
}

#[test]
fn any_bytes_and_any_place_get_a_clause() {
    let mut numbers = Numbers(0xF16);
    for _ in 0..20_000 {
        let mut figure = FIGURE.to_vec();
        for _ in 0..numbers.below(6) {
            let place = numbers.below(figure.len());
            figure[place] = numbers.next() as u8;
        }
        figure.resize(numbers.below(2 * FIGURE.len()), numbers.next() as u8);
        let place = numbers.place(&figure);
        let clause = Refusal { number: 14, place }.in_figure(&figure);
        assert!(!clause.is_empty() && !clause.contains('\n'), "{clause}");
    }
}
