//! Random certificates for a job's runs: fitting ones, some left out, rivals that only
//! their letter keeps from being chosen, and strays.

use independent::job::{Certificate, Instrument, Kind, Run};

use super::Style;
use crate::random::Random;

const MOST_CERTIFICATES: usize = 64;

/// Certificates for the runs' instruments, some missing and some beside the
/// point, in no order.
pub(super) fn certificates(random: &mut Random, runs: &[Run], style: Style) -> Vec<Certificate> {
    let mut list = Vec::new();
    for run in runs {
        certify_meter(random, &mut list, run, style);
        certify(random, &mut list, Kind::Pitot, run.pitot, run.day, style);
        certify(random, &mut list, Kind::Nozzle, run.nozzle, run.day, style);
        add_rivals(random, &mut list, run, style);
    }
    let extra = random.below(6);
    let wanted = if style.full {
        MOST_CERTIFICATES
    } else {
        list.len() + extra
    };
    while list.len() < wanted {
        let run = &runs[random.below(runs.len())];
        add_new(&mut list, stray(random, run, style));
    }
    random.shuffle(&mut list);
    list.truncate(MOST_CERTIFICATES);
    list
}

/// Adds it unless it would repeat an earlier one.
fn add_new(list: &mut Vec<Certificate>, new: Certificate) {
    let repeats = |one: &Certificate| {
        (one.kind, one.instrument, one.day) == (new.kind, new.instrument, new.day)
    };
    if !list.iter().any(repeats) {
        list.push(new);
    }
}

fn is_left_out(random: &mut Random, style: Style) -> bool {
    random.percent(4 + style.wildness / 10)
}

fn certify_meter(random: &mut Random, list: &mut Vec<Certificate>, run: &Run, style: Style) {
    let before = values(random, Kind::Meter, style);
    let mut add = |day: i64, values: [u16; 3]| {
        if let Ok(day) = u16::try_from(day) {
            add_new(list, Certificate::new(Kind::Meter, run.meter, day, values));
        }
    };
    let day = i64::from(run.day);
    if !is_left_out(random, style) {
        add(day - random.pick(&[0, 0, 1, 10]), before);
    }
    if !is_left_out(random, style) {
        let after = [factor_after(random, before[0]), 0, 0];
        add(day + random.pick(&[1, 1, 2, 20]), after);
    }
}

/// Around 5 percent away from the factor before, or close to it.
fn factor_after(random: &mut Random, before: u16) -> u16 {
    let before = i64::from(before);
    let twentieth = before / 20;
    let step = match random.below(3) {
        0 => random.pick(&[-twentieth, twentieth]) + random.pick(&[-1, 0, 1]),
        _ => random.within(-100..=100),
    };
    (before + step).clamp(9_000, 11_000) as u16
}

fn certify(
    random: &mut Random,
    list: &mut Vec<Certificate>,
    kind: Kind,
    instrument: Instrument,
    run_day: u16,
    style: Style,
) {
    if is_left_out(random, style) {
        return;
    }
    let day = run_day.saturating_sub(random.pick(&[0, 1, 10]));
    let values = values(random, kind, style);
    add_new(list, Certificate::new(kind, instrument, day, values));
}

/// Certificates of the run's meter, pitot and nozzle under other letters, often dated
/// nearer than their own, or on the same day.
fn add_rivals(random: &mut Random, list: &mut Vec<Certificate>, run: &Run, style: Style) {
    for (kind, instrument) in [
        (Kind::Meter, run.meter),
        (Kind::Pitot, run.pitot),
        (Kind::Nozzle, run.nozzle),
    ] {
        let letter = random.pick(style.letters);
        let day = i64::from(run.day) + random.pick(&[-5, -1, 0, 0, 1, 1, 2]);
        if letter == instrument.letter || !(0..=65_535).contains(&day) {
            continue;
        }
        let rival = Instrument {
            letter,
            ..instrument
        };
        let values = values(random, kind, style);
        add_new(list, Certificate::new(kind, rival, day as u16, values));
    }
}

/// One that a careless match would take: right in most of kind, maker, serial,
/// letter and day.
fn stray(random: &mut Random, run: &Run, style: Style) -> Certificate {
    let kind = random.pick(&[Kind::Meter, Kind::Pitot, Kind::Nozzle]);
    let mut instrument = random.pick(&[run.meter, run.pitot, run.nozzle]);
    match random.below(5) {
        0 => instrument.maker[random.below(3)] = b'Q',
        1 => instrument.serial = random.within(1..=300) as u32,
        2 => instrument.serial ^= 1 << random.within(8..=31),
        3 => instrument.letter = random.pick(style.letters),
        _ => {}
    }
    let day = match random.below(3) {
        0 => random.near_ends(0, 65_535),
        _ => i64::from(run.day) + random.within(-60..=60),
    };
    Certificate {
        kind,
        instrument,
        day: day.clamp(0, 65_535) as u16,
        values: values(random, kind, style),
    }
}

fn values(random: &mut Random, kind: Kind, style: Style) -> [u16; 3] {
    let wild = random.percent(style.wildness);
    match kind {
        Kind::Meter if wild => [random.near_ends(9_000, 11_000) as u16, 0, 0],
        Kind::Meter => [random.pick(&[9_900, 10_000, 10_001, 10_019, 10_020]), 0, 0],
        Kind::Pitot if wild => [random.near_ends(500, 1_000) as u16, 0, 0],
        Kind::Pitot => [random.within(830..=850) as u16, 0, 0],
        Kind::Nozzle if wild => std::array::from_fn(|_| random.near_ends(100, 1_000) as u16),
        Kind::Nozzle => nozzle_values(random),
    }
}

/// Diameters 4 apart at most, or 5.
fn nozzle_values(random: &mut Random) -> [u16; 3] {
    let apart = random.pick(&[0, 1, 4, 4, 5]);
    let mut values = [250, 250 + apart, 250 + apart / 2];
    random.shuffle(&mut values);
    values
}
