//! Traverse layouts and their refusals.

use independent::{rect_distances, rect_layout, round_distances, round_layout};

const OUT_OF_RANGE: u64 = 11 << 32;
const TOO_SHORT: u64 = 9 << 32;

#[test]
fn six_points_on_a_diameter() {
    // 100 in: a thousandth of the diameter is 0.1 in; the wall takes no point.
    let distances = round_distances(6, 1_000, 100).unwrap();
    assert_eq!(distances, [4_400, 14_600, 29_600, 70_400, 85_400, 95_600]);
}

#[test]
fn points_keep_from_the_walls() {
    // 44 thousandths of 12 in are 0.528 in.
    assert_eq!(round_distances(6, 120, 500).unwrap()[0], 528);
    assert_eq!(round_distances(6, 120, 529).unwrap()[0], 529);
    assert_eq!(round_distances(6, 120, 529).unwrap()[5], 12_000 - 529);
    // 21 thousandths: half an inch up to 24 in, a whole one above.
    assert_eq!(round_distances(12, 200, 100).unwrap()[0], 500);
    assert_eq!(round_distances(12, 240, 100).unwrap()[0], 504);
    assert_eq!(round_distances(12, 241, 100).unwrap()[0], 1_000);
    assert_eq!(round_distances(12, 241, 100).unwrap()[11], 24_100 - 1_000);
}

#[test]
fn every_even_count_has_mirrored_rising_positions() {
    for points in (2..=24).step_by(2) {
        // At 999 in the walls keep back about a thousandth, less than any point does.
        let distances = round_distances(points, 9_990, 100).unwrap();
        assert_eq!(distances.len(), usize::from(points));
        assert!(distances.windows(2).all(|pair| pair[0] < pair[1]));
        let ends = distances.iter().zip(distances.iter().rev());
        assert!(ends.into_iter().all(|(near, far)| near + far == 999_000));
    }
}

#[test]
fn round_ranges() {
    let layout = |points, diameter, nozzle| round_layout(points, diameter, nozzle, &mut [0; 96]);
    assert_eq!(layout(2, 120, 100), 8);
    assert_eq!(layout(24, 9_999, 1_000), 96);
    for (points, diameter, nozzle) in [
        (0, 120, 100),
        (3, 120, 100),
        (26, 120, 100),
        (2, 119, 100),
        (2, 10_000, 100),
        (2, 120, 99),
        (2, 120, 1_001),
    ] {
        assert_eq!(layout(points, diameter, nozzle), OUT_OF_RANGE);
    }
}

#[test]
fn cells_follow_the_longer_side() {
    let wide = rect_distances(12, 400, 300).unwrap();
    assert_eq!(
        wide[..4],
        [
            [5_000, 5_000],
            [15_000, 5_000],
            [25_000, 5_000],
            [35_000, 5_000]
        ]
    );
    assert_eq!(wide[4], [5_000, 15_000]);
    let tall = rect_distances(12, 300, 400).unwrap();
    assert_eq!(
        tall[..3],
        [[5_000, 5_000], [15_000, 5_000], [25_000, 5_000]]
    );
    assert_eq!(tall[3], [5_000, 15_000]);
    let equal = rect_distances(12, 240, 240).unwrap();
    assert_eq!(equal[..2], [[3_000, 4_000], [9_000, 4_000]]);
}

#[test]
fn centers_are_rounded_halves_upward() {
    // 100·125/(2·4) is 1562.5.
    assert_eq!(rect_distances(16, 125, 125).unwrap()[0], [1_563, 1_563]);
}

#[test]
fn rectangular_ranges() {
    let layout = |points, first, second| rect_layout(points, first, second, &mut [0; 392]);
    assert_eq!(layout(9, 120, 120), 72);
    assert_eq!(layout(49, 9_999, 9_999), 392);
    // Exactly 12 in, and a hair below.
    assert_eq!(layout(9, 100, 150), 72);
    assert_eq!(layout(9, 100, 149), OUT_OF_RANGE);
    assert_eq!(layout(9, 60, 9_999), OUT_OF_RANGE);
    assert_eq!(layout(9, 61, 9_999), 72);
    for (points, first, second) in [
        (8, 200, 200),
        (10, 200, 200),
        (50, 200, 200),
        (9, 0, 0),
        (9, 0, 200),
        (9, 10_000, 200),
    ] {
        assert_eq!(layout(points, first, second), OUT_OF_RANGE);
    }
}

#[test]
fn a_short_output_comes_after_the_ranges_and_stays_untouched() {
    assert_eq!(round_layout(3, 120, 100, &mut []), OUT_OF_RANGE);
    assert_eq!(rect_layout(8, 120, 120, &mut []), OUT_OF_RANGE);
    let mut out = [0xA5; 71];
    assert_eq!(round_layout(18, 120, 100, &mut out), TOO_SHORT);
    assert_eq!(rect_layout(9, 120, 120, &mut out), TOO_SHORT);
    assert_eq!(out, [0xA5; 71]);
}

#[test]
fn bytes_beyond_a_layout_stay() {
    let mut out = [0xA5; 12];
    assert_eq!(round_layout(2, 1_000, 100, &mut out), 8);
    // 146 and 854 thousandths of 100 in.
    assert_eq!(out[..4], 14_600_u32.to_le_bytes());
    assert_eq!(out[4..8], 85_400_u32.to_le_bytes());
    assert_eq!(out[8..], [0xA5; 4]);
}
