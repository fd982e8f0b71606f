//! Random runs whose every value is in range.

use independent::job::*;
use independent::samples;

use super::{Style, MOST_METERED};
use crate::fields::{POINT, RECTANGULAR_COUNTS, RUN, SEGMENT_LEAK, WEIGHING};
use crate::random::Random;
use crate::site::diameter;

pub(super) const MOST_POINTS: usize = 64;
const MOST_SEGMENTS: usize = 16;
const MOST_WEIGHINGS: usize = 8;
const LONGEST_RUN: i64 = 36_000;

/// A slow stack's heads are a few thousandths of an inch.
const SLOW_HEAD: i64 = 10;

pub(super) fn run(random: &mut Random, number: u16, style: Style) -> Run {
    let calm = samples::worked().runs.remove(0);
    let mut run = Run {
        number,
        meter: instrument(random, style),
        pitot: instrument(random, style),
        nozzle: instrument(random, style),
        ..calm
    };
    choose_stack(random, &mut run, style);
    run.points = points(random, run.shape, style);
    choose_readings(random, &mut run, style);
    run.segments = segments(random, &run, style);
    run.weighings = weighings(random, style);
    choose_gases(random, &mut run, style);
    for field in &RUN {
        if random.percent(style.wildness) {
            field.put_inside(random, &mut run);
        }
    }
    if !style.full && random.percent(5) {
        // Nothing weighed, a blank to take off: a catch below 0, mostly.
        run.weighings.clear();
        run.rinse_volume = 1_000;
    }
    run
}

/// Few makers and serials, so that instruments meet across kinds and runs.
fn instrument(random: &mut Random, style: Style) -> Instrument {
    Instrument {
        maker: random.pick(&[*b"ABC", *b"ABC", *b"ABD", *b"AZZ"]),
        serial: random.pick(&[1, 2, 10_442, u32::MAX]),
        letter: random.pick(style.letters),
    }
}

fn choose_stack(random: &mut Random, run: &mut Run, style: Style) {
    if random.percent(40) {
        run.shape = Shape::Rectangular;
        run.sides = sides(random, style);
    } else {
        run.shape = Shape::Round;
        run.sides = [side(random, style), 0];
    }
    let (numerator, denominator) = diameter(run);
    let diameter = numerator / denominator;
    run.to_next_disturbance = distance(random, diameter, &[1, 4, 5, 6], style);
    run.from_last_disturbance = distance(random, diameter, &[4, 16, 17, 20], style);
}

/// Widths around 12 in and 24 in and the ends of the range.
fn side(random: &mut Random, style: Style) -> u16 {
    if random.percent(style.wildness) {
        return random.near_ends(1, 9_999) as u16;
    }
    random.pick(&[119, 120, 121, 200, 239, 240, 241, 300, 600, 1_200])
}

/// Also rectangles of 12 in and 24 in exactly, and a hair off.
fn sides(random: &mut Random, style: Style) -> [u16; 2] {
    let mut sides = random.pick(&[
        [100, 150],
        [100, 149],
        [80, 240],
        [61, 9_999],
        [200, 300],
        [200, 301],
        [201, 300],
        [160, 480],
        [0, 0],
    ]);
    if sides == [0, 0] || random.percent(style.wildness) {
        sides = [side(random, style), side(random, style)];
    }
    if random.percent(50) {
        sides.reverse();
    }
    sides
}

/// About so many half diameters, or anything.
fn distance(random: &mut Random, diameter: i64, halves: &[i64], style: Style) -> u16 {
    if random.percent(style.wildness) {
        return random.near_ends(0, 65_535) as u16;
    }
    let about = random.pick(halves) * diameter / 2 + random.pick(&[-1, 0, 0, 1, 2]);
    about.clamp(0, 65_535) as u16
}

fn point_count(random: &mut Random, shape: Shape, style: Style) -> usize {
    if style.full {
        return MOST_POINTS;
    }
    if random.percent(style.wildness.max(5)) {
        return random.near_ends(1, MOST_POINTS as i64) as usize;
    }
    match shape {
        Shape::Round => random.pick(&[4, 8, 8, 12, 16, 20, 24, 24, 28, 36, 64]),
        Shape::Rectangular => usize::from(random.pick(&RECTANGULAR_COUNTS)),
    }
}

fn points(random: &mut Random, shape: Shape, style: Style) -> Vec<Point> {
    let count = point_count(random, shape, style);
    let (still, slow) = (random.percent(3), random.percent(5));
    point_seconds(random, count, style)
        .into_iter()
        .map(|seconds| {
            let mut point = point(random, seconds, style);
            if still {
                point.velocity_head = 0;
            } else if slow {
                point.velocity_head = random.within(1..=SLOW_HEAD) as u16;
            }
            point
        })
        .collect()
}

/// Seconds for that many points, not over the longest run together.
fn point_seconds(random: &mut Random, count: usize, style: Style) -> Vec<u16> {
    let most_each = LONGEST_RUN / count as i64;
    if random.percent(style.wildness) {
        let total = random.near_ends(count as i64, LONGEST_RUN);
        return divided(random, total, count);
    }
    let each = random.pick(&[120, 121, 150, 300, 450]).min(most_each) as u16;
    let mut seconds = vec![each; count];
    if random.percent(10) {
        let short = random.below(count);
        seconds[short] = random.pick(&[1, 119, 120]).min(each);
    }
    seconds
}

/// The total in that many parts, none of them 0.
fn divided(random: &mut Random, total: i64, parts: usize) -> Vec<u16> {
    let mut left = total;
    (1..=parts as i64)
        .rev()
        .map(|parts_left| {
            let others = parts_left - 1;
            let fair = left / parts_left;
            let part = match others {
                0 => left,
                _ => random.near_ends(1, (left - others).min(2 * fair)),
            };
            left -= part;
            part as u16
        })
        .collect()
}

fn point(random: &mut Random, seconds: u16, style: Style) -> Point {
    let mut point = Point {
        seconds,
        velocity_head: random.within(450..=550) as u16,
        orifice_head: random.within(150..=250) as u16,
        stack_temperature: random.within(1_900..=2_100) as i16,
        meter_inlet: random.within(750..=850) as i16,
        meter_outlet: random.within(700..=800) as i16,
    };
    for field in &POINT {
        if random.percent(style.wildness) {
            field.put_inside(random, &mut point);
        }
    }
    point
}

fn time(run: &Run) -> i64 {
    run.points
        .iter()
        .map(|point| i64::from(point.seconds))
        .sum()
}

/// A volume near the isokinetic one, or one that puts a whole leak rate exactly
/// at 4 percent, or an end of the range.
fn choose_readings(random: &mut Random, run: &mut Run, style: Style) {
    let time = time(run);
    let calm = 100 * time / 9;
    let metered = match random.below(20) {
        0 => 0,
        1 => random.within(1..=3),
        2 | 3 => 5 * time * random.within(1..=40) / 12,
        4 => random.near_ends(0, MOST_METERED),
        _ if random.percent(style.wildness) => random.near_ends(0, MOST_METERED),
        _ => calm * random.within(85..=115) / 100,
    };
    let first = random.near_ends(0, 999_999_999);
    run.first_reading = first as u32;
    run.last_reading = (first + metered.clamp(0, MOST_METERED)) as u32;
}

fn segments(random: &mut Random, run: &Run, style: Style) -> Vec<Segment> {
    let time = time(run);
    let metered = i64::from(run.last_reading - run.first_reading);
    let most = MOST_SEGMENTS.min(time as usize);
    let count = match style.full {
        true => most,
        false => random.pick(&[1, 1, 2, 3, MOST_SEGMENTS]).min(most),
    };
    divided(random, time, count)
        .into_iter()
        .map(|seconds| Segment {
            seconds,
            leak: leak(random, time, metered, style),
        })
        .collect()
}

/// Mostly at or about the allowance.
fn leak(random: &mut Random, time: i64, metered: i64, style: Style) -> u16 {
    let allowed = (100 * time).min(12 * metered) / (5 * time);
    if random.percent(style.wildness / 2) {
        return random.near_ends(SEGMENT_LEAK.least, SEGMENT_LEAK.greatest) as u16;
    }
    random.pick(&[0, 5, 19, 20, 21, 30, allowed, allowed, allowed + 1]) as u16
}

fn weighings(random: &mut Random, style: Style) -> Vec<Weighing> {
    if style.full || random.percent(style.wildness) {
        let count = match style.full {
            true => MOST_WEIGHINGS,
            false => random.near_ends(0, MOST_WEIGHINGS as i64) as usize,
        };
        return (0..count).map(|_| any_weighing(random, style)).collect();
    }
    let mut pair = vec![
        weighing(random, WeighingKind::Filter),
        weighing(random, WeighingKind::Rinse),
    ];
    random.shuffle(&mut pair);
    pair
}

fn any_weighing(random: &mut Random, style: Style) -> Weighing {
    let kind = random.pick(&[WeighingKind::Filter, WeighingKind::Rinse]);
    let mut weighing = weighing(random, kind);
    for field in &WEIGHING {
        if random.percent(style.wildness / 3) {
            field.put_inside(random, &mut weighing);
        }
    }
    weighing
}

/// Final weights just as far apart as they may be, or closer, or a little further.
fn weighing(random: &mut Random, kind: WeighingKind) -> Weighing {
    let tare = random.within(1_000..=3_000_000);
    let net = net(random);
    let most = (net / 100).max(5);
    let apart = match random.percent(5) {
        true => most + 1,
        false => random.pick(&[0, 0, 1, most - 1, most]),
    };
    let second_final = tare + net;
    let first_final = second_final + random.pick(&[-apart, apart]);
    Weighing {
        kind,
        tare: tare as u32,
        first_final: first_final as u32,
        second_final: second_final as u32,
    }
}

/// Mostly light, so that 5 units are more than 1 percent or hardly less; heavy, also
/// by whole hundreds, of which 1 percent is a difference exactly; or less than nothing.
fn net(random: &mut Random) -> i64 {
    match random.below(20) {
        0 => random.within(-900..=-1),
        1 | 2 => random.within(490..=710),
        3 => random.within(2_000..=900_000),
        4 => 100 * random.within(5..=9_000),
        _ => random.within(-20..=2_000),
    }
}

fn choose_gases(random: &mut Random, run: &mut Run, style: Style) {
    if random.percent(style.wildness) {
        let co2 = random.near_ends(0, 1_000);
        run.co2 = co2 as u16;
        run.o2 = random.near_ends(0, 1_000 - co2) as u16;
    }
}
