//! A short figure and the longest, cut at each of their bytes, and with each changed.

use independent::figure::{Figure, Step, MOST_RECTANGULAR, MOST_ROUND};
use independent::job::Version;
use independent::samples;

use super::steps::longest_figure;
use crate::case::{ByFigure, Expected};
use crate::cases::worked::{other_values, telling_values};
use crate::extent::Figures;
use crate::versions::in_version;

/// Two steps in each list, from the most points downward.
fn short_figure() -> Figure {
    let step = |least_distance, round, rectangular| Step {
        least_distance,
        round,
        rectangular,
    };
    Figure {
        from_last: vec![step(300, 48, 49), step(500, 16, 20)],
        to_next: vec![step(0, 24, 30), step(100, 8, 9)],
    }
}

/// Where the points of the first step of either list of the short figure stand, and the
/// most that there may be.
const FIRST_POINTS: [(usize, u8); 4] = [
    (8, MOST_ROUND),
    (9, MOST_RECTANGULAR),
    (17, MOST_ROUND),
    (18, MOST_RECTANGULAR),
];

/// The short figure with no points asked for there, and with more than there may be.
pub fn points_outside(version: Version) -> impl Iterator<Item = ByFigure> {
    FIRST_POINTS.into_iter().flat_map(move |(at, most)| {
        [0, most + 1, most + 2].map(|points| {
            let mut figure = short_figure().bytes();
            figure[at] = points;
            let name = format!("a first step with {points} points at byte {at}");
            beside_fewer_points(version, name, figure, Expected::Refused(14))
        })
    })
}

/// Every shorter file of the short figure, and one in so many of the longest.
pub fn truncations(version: Version, one_in: usize) -> impl Iterator<Item = ByFigure> {
    let short = cut(short_figure());
    let longest = cut(longest_figure()).step_by(one_in);
    short.chain(longest).map(move |figure| {
        let name = format!("a figure cut to {} bytes", figure.len());
        beside_fewer_points(version, name, figure, Expected::Refused(14))
    })
}

fn cut(figure: Figure) -> impl Iterator<Item = Vec<u8>> {
    let figure = figure.bytes();
    (0..figure.len()).map(move |length| figure[..length].to_vec())
}

/// The short figure with every other value of each byte, or with telling ones, and the
/// longest with telling ones; one in so many of each.
pub fn changes(version: Version, extent: &Figures) -> impl Iterator<Item = ByFigure> {
    let values = match extent.every_value {
        true => other_values,
        false => telling_values,
    };
    let short = changed(short_figure(), values).step_by(extent.one_short_change_in);
    let longest = changed(longest_figure(), telling_values).step_by(extent.one_change_in);
    short.chain(longest).map(move |(figure, at)| {
        let name = format!(
            "a figure of {} bytes with byte {at} set to {}",
            figure.len(),
            figure[at]
        );
        beside_fewer_points(version, name, figure, Expected::Either)
    })
}

/// With the place of the changed byte.
fn changed(figure: Figure, values: fn(u8) -> Vec<u8>) -> impl Iterator<Item = (Vec<u8>, usize)> {
    let figure = figure.bytes();
    (0..figure.len()).flat_map(move |at| {
        let values = values(figure[at]).into_iter();
        let mut figure = figure.clone();
        values.map(move |value| {
            figure[at] = value;
            (figure.clone(), at)
        })
    })
}

fn beside_fewer_points(
    version: Version,
    name: String,
    figure: Vec<u8>,
    expected: Expected,
) -> ByFigure {
    let job = in_version(version, samples::fewer_points());
    ByFigure::of_job(name, figure, job, expected)
}
