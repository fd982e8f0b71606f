//! Traverse layouts: where the points stand in a round or rectangular stack.

use crate::answer::{Reason, Refusal};
use crate::arithmetic::rounded;
use crate::diameter::{Diameter, GREATEST_SMALL_DIAMETER, LEAST_DIAMETER};

const DISTANCE_LENGTH: usize = 4;

/// The least distance from a wall, 0.001 in.
const WALL: u16 = 1_000;
const WALL_OF_SMALL: u16 = 500;

/// The distances of the points on one diameter, 0.001 in, from the near wall.
pub fn round_distances(points: u16, diameter: u16, nozzle: u16) -> Result<Vec<u32>, Refusal> {
    let in_range = (2..=24).contains(&points)
        && points % 2 == 0
        && (LEAST_DIAMETER..=9_999).contains(&diameter)
        && (100..=1_000).contains(&nozzle);
    if !in_range {
        return Err(Refusal::new(Reason::LayoutOutOfRange, 0));
    }
    let wall = if diameter > GREATEST_SMALL_DIAMETER {
        WALL
    } else {
        WALL_OF_SMALL
    };
    let least = u32::from(wall.max(nozzle));
    let greatest = 100 * u32::from(diameter) - least;

    let near: Vec<i64> = (1..=points / 2).map(|i| position(points, i)).collect();
    let far = near.iter().rev().map(|p| 1_000 - p);
    Ok(near
        .iter()
        .copied()
        .chain(far)
        .map(|p| rounded(i128::from(p) * i128::from(diameter), 10) as u32)
        .map(|distance| distance.clamp(least, greatest))
        .collect())
}

/// The i-th point's share of the diameter, in 1/1,000: the one p below 500 with
/// (999-2p)²·n < 10^6·(n-2i+1) < (1001-2p)²·n. From 500 on the right square is
/// not above the left one, so no other p fits; and one always does, since the
/// middle, a multiple of 64, is never an odd square times an n below 64.
fn position(points: u16, i: u16) -> i64 {
    let (n, i) = (i64::from(points), i64::from(i));
    let middle = 1_000_000 * (n - 2 * i + 1);
    let fits = |p: &i64| (999 - 2 * p).pow(2) * n < middle && middle < (1_001 - 2 * p).pow(2) * n;
    (0..500).find(fits).expect("each point has its position")
}

/// The centers of the cells, 0.001 in: pairs of a distance along the first side
/// and one along the second, the first side fastest.
pub fn rect_distances(points: u16, first: u16, second: u16) -> Result<Vec<[u32; 2]>, Refusal> {
    let out_of_range = Refusal::new(Reason::LayoutOutOfRange, 0);
    let (more, fewer) = grid(points).ok_or(out_of_range)?;
    let sides = 1..=9_999;
    if !sides.contains(&first)
        || !sides.contains(&second)
        || Diameter::of_rectangle(first, second).is_below(LEAST_DIAMETER)
    {
        return Err(out_of_range);
    }
    let (along_first, along_second) = if first >= second {
        (more, fewer)
    } else {
        (fewer, more)
    };
    Ok((1..=along_second)
        .flat_map(|j| {
            (1..=along_first).map(move |i| {
                [
                    center(first, along_first, i),
                    center(second, along_second, j),
                ]
            })
        })
        .collect())
}

/// The cells of a rectangle with so many points, the larger count first; `None`
/// for a number that no rectangle has.
pub fn grid(points: u16) -> Option<(u16, u16)> {
    match points {
        9 => Some((3, 3)),
        12 => Some((4, 3)),
        16 => Some((4, 4)),
        20 => Some((5, 4)),
        25 => Some((5, 5)),
        30 => Some((6, 5)),
        36 => Some((6, 6)),
        42 => Some((7, 6)),
        49 => Some((7, 7)),
        _ => None,
    }
}

fn center(side: u16, cells: u16, i: u16) -> u32 {
    let numerator = (2 * i128::from(i) - 1) * 100 * i128::from(side);
    rounded(numerator, 2 * i128::from(cells)) as u32
}

/// Writes the distances and answers how many bytes they took; none when the
/// output is too short for all of them.
pub fn write(distances: &[u32], out: &mut [u8]) -> Result<u32, Refusal> {
    let needed = distances.len() * DISTANCE_LENGTH;
    if out.len() < needed {
        return Err(Refusal::new(Reason::OutputTooShort, 0));
    }
    for (distance, bytes) in distances.iter().zip(out.chunks_exact_mut(DISTANCE_LENGTH)) {
        bytes.copy_from_slice(&distance.to_le_bytes());
    }
    Ok(needed as u32)
}
