//! Traverse layouts: every count of points with sizes about every limit, every
//! diameter, and outputs of every length for the largest of each kind.

use leverbonnet::pipe::Call;

use crate::extent::Extent;
use crate::fields::RECTANGULAR_COUNTS;
use crate::random::Random;

const SEED: u64 = 0x40_0000;
const DISTANCE_LENGTH: usize = 4;

/// More than the largest layout needs: 49 cells of two distances.
const ROOMY: usize = 2 * 49 * DISTANCE_LENGTH + 5;

static DIAMETERS: [u16; 16] = [
    0, 1, 119, 120, 121, 200, 239, 240, 241, 242, 600, 4_321, 9_998, 9_999, 10_000, 65_535,
];

static NOZZLES: [u16; 14] = [
    0, 1, 99, 100, 101, 250, 499, 500, 501, 999, 1_000, 1_001, 1_002, 65_535,
];

static SIDES: [u16; 30] = [
    0, 1, 2, 59, 60, 61, 62, 79, 80, 81, 99, 100, 101, 119, 120, 121, 149, 150, 151, 239, 240, 241,
    333, 1_000, 4_321, 9_997, 9_998, 9_999, 10_000, 65_535,
];

/// Counts outside every range, beside all that are near one.
const FAR_COUNTS: [u16; 3] = [64, 256, 65_535];

/// One in so many pairs of sizes meets a wrong count when not all do: no sizes
/// make it right. It shares no factor with a list's length, so all get a turn.
const ONE_PAIR_IN: usize = 23;

pub fn calls(extent: &Extent) -> impl Iterator<Item = Call> {
    round_limits(extent.every_pairing)
        .chain(every_diameter(extent.every_pairing))
        .chain(rectangular_limits(extent.every_pairing))
        .chain(random_rectangles(extent.random_rectangles))
        .chain(output_lengths())
}

fn is_round_count(points: u16) -> bool {
    (2..=24).contains(&points) && points % 2 == 0
}

fn round_limits(every_pairing: bool) -> impl Iterator<Item = Call> {
    (0..=26).chain(FAR_COUNTS).flat_map(move |points| {
        let needed = (usize::from(points) * DISTANCE_LENGTH).min(ROOMY);
        let lengths = [0, needed.saturating_sub(1), needed, ROOMY];
        let all = every_pairing || is_round_count(points);
        pairs(&DIAMETERS, &NOZZLES, all).flat_map(move |(diameter, nozzle)| {
            lengths.map(|out_len| Call::RoundLayout {
                points,
                diameter,
                nozzle,
                out_len,
            })
        })
    })
}

fn every_diameter(every_pairing: bool) -> impl Iterator<Item = Call> {
    (120..=9_999).flat_map(move |diameter| {
        let counts = (2..=24).step_by(2);
        let its_count = 2 + diameter % 12 * 2;
        let counts = counts.filter(move |&points| every_pairing || points == its_count);
        counts.map(move |points| Call::RoundLayout {
            points,
            diameter,
            nozzle: 100 + diameter % 901,
            out_len: usize::from(points) * DISTANCE_LENGTH,
        })
    })
}

fn rectangular_limits(every_pairing: bool) -> impl Iterator<Item = Call> {
    (0..=50).chain(FAR_COUNTS).flat_map(move |points| {
        let needed = (2 * usize::from(points) * DISTANCE_LENGTH).min(ROOMY);
        let all = every_pairing || RECTANGULAR_COUNTS.contains(&points);
        pairs(&SIDES, &SIDES, all).flat_map(move |(first, second)| {
            [needed.saturating_sub(1), ROOMY].map(|out_len| Call::RectLayout {
                points,
                first,
                second,
                out_len,
            })
        })
    })
}

fn pairs(
    firsts: &'static [u16],
    seconds: &'static [u16],
    all: bool,
) -> impl Iterator<Item = (u16, u16)> {
    firsts
        .iter()
        .flat_map(|&first| seconds.iter().map(move |&second| (first, second)))
        .step_by(if all { 1 } else { ONE_PAIR_IN })
}

fn random_rectangles(count: u64) -> impl Iterator<Item = Call> {
    (0..count).map(|k| {
        let mut random = Random::new(SEED + k);
        Call::RectLayout {
            points: random.pick(&RECTANGULAR_COUNTS),
            first: random.near_ends(1, 9_999) as u16,
            second: random.near_ends(1, 9_999) as u16,
            out_len: ROOMY,
        }
    })
}

fn output_lengths() -> impl Iterator<Item = Call> {
    (0..=ROOMY).flat_map(|out_len| {
        [
            Call::RoundLayout {
                points: 24,
                diameter: 600,
                nozzle: 250,
                out_len,
            },
            Call::RectLayout {
                points: 49,
                first: 300,
                second: 400,
                out_len,
            },
        ]
    })
}
