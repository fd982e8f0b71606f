//! Ways to damage a job that is read, each saying which refusal must follow when
//! it is the only damage.

pub mod figures;

use independent::job::*;

use crate::case::{Change, Expected, Subject};
use crate::fields::{Field, POINT, POINT_SECONDS, RUN, SEGMENT_LEAK, SEGMENT_SECONDS, WEIGHING};
use crate::random::Random;
use crate::versions::other;

pub type Spoil = fn(&mut Random, &mut Subject) -> Expected;

pub const SPOILS: [(&str, Spoil); 18] = [
    ("cut short", cut),
    ("bytes left over", leave_over),
    ("bytes changed", change_bytes),
    ("wrong mark", wrong_mark),
    ("wrong version", wrong_version),
    ("the other version", other_version),
    ("count out of range", count_outside),
    ("another count in range", another_count),
    ("run field outside", run_field_outside),
    ("record field outside", record_field_outside),
    ("dependent field outside", dependent_field_outside),
    ("instrument outside", instrument_outside),
    ("letter outside", letter_outside),
    ("certificate value outside", certificate_value_outside),
    ("byte with few values", chosen_byte_outside),
    ("certificate repeated", repeat_certificate),
    ("run number not above", run_number_not_above),
    ("seconds do not agree", seconds_disagree),
];

const FIELD: Expected = Expected::Refused(5);

fn cut(random: &mut Random, subject: &mut Subject) -> Expected {
    let length = random.below(subject.bytes().len().max(1));
    subject.changes.push(Change::Cut { length });
    Expected::Refused(1)
}

fn leave_over(random: &mut Random, subject: &mut Subject) -> Expected {
    let length = random.pick(&[1, 2, 11, 64, 300]);
    let more = (0..length).map(|_| random.byte()).collect();
    subject.changes.push(Change::Append(more));
    Expected::Refused(8)
}

fn change_bytes(random: &mut Random, subject: &mut Subject) -> Expected {
    let length = subject.bytes().len().max(1);
    for _ in 0..random.pick(&[1, 1, 2, 3]) {
        let at = random.below(length);
        let value = random.byte();
        subject.changes.push(Change::Set { at, value });
    }
    Expected::Either
}

fn set(subject: &mut Subject, at: usize, value: u8) {
    subject.changes.push(Change::Set { at, value });
}

fn wrong_mark(random: &mut Random, subject: &mut Subject) -> Expected {
    let at = random.below(MARK.len());
    set(subject, at, random.pick(&[0, b's', b'X', 255]));
    Expected::Refused(2)
}

fn wrong_version(random: &mut Random, subject: &mut Subject) -> Expected {
    let version: u16 = random.pick(&[0, 3, 255, 256, 257, 258, 512, 65_535]);
    let [low, high] = version.to_le_bytes();
    set(subject, 3, low);
    set(subject, 4, high);
    Expected::Refused(3)
}

/// What follows is then read as something else, and any trouble may come first.
fn other_version(_: &mut Random, subject: &mut Subject) -> Expected {
    let version = other(subject.job.version);
    set(subject, 3, version as u8);
    Expected::Either
}

/// A random run and where it starts, as the values alone would have it.
fn any_run(random: &mut Random, subject: &Subject) -> (usize, usize) {
    let Job {
        version,
        certificates,
        runs,
    } = &subject.job;
    let chosen = random.below(runs.len());
    let certificates = certificates.len() * version.certificate_length();
    let runs_before = runs[..chosen].iter();
    let runs_before: usize = runs_before.map(|run| run_length(*version, run)).sum();
    (chosen, HEADER_LENGTH + certificates + runs_before)
}

fn run_length(version: Version, run: &Run) -> usize {
    version.run_length()
        + run.points.len() * POINT_LENGTH
        + run.segments.len() * SEGMENT_LENGTH
        + run.weighings.len() * WEIGHING_LENGTH
}

/// Fields behind a run's letters, by their places in version 1.
const SHAPE: usize = 43;
const POINTS: usize = 60;
const SEGMENTS: usize = 61;
const WEIGHINGS: usize = 62;
const SPARE: usize = 63;

/// Where such a field lies in a run's part.
fn behind_letters(version: Version, place: usize) -> usize {
    version.run_length() - RUN_LENGTH + place
}

fn count_outside(random: &mut Random, subject: &mut Subject) -> Expected {
    let (_, start) = any_run(random, subject);
    let place = |count| start + behind_letters(subject.job.version, count);
    let (at, value) = random.pick(&[
        (5, 65),
        (6, 1),
        (7, 0),
        (7, 17),
        (8, 255),
        (place(POINTS), 0),
        (place(POINTS), 65),
        (place(SEGMENTS), 0),
        (place(SEGMENTS), 17),
        (place(WEIGHINGS), 9),
        (place(WEIGHINGS), 255),
    ]);
    set(subject, at, value);
    Expected::Refused(4)
}

/// What follows is then read as something else, and any trouble may come first.
fn another_count(random: &mut Random, subject: &mut Subject) -> Expected {
    let (_, start) = any_run(random, subject);
    let place = |count| start + behind_letters(subject.job.version, count);
    let (at, most) = random.pick(&[
        (5, 64),
        (7, 16),
        (place(POINTS), 64),
        (place(SEGMENTS), 16),
        (place(WEIGHINGS), 8),
    ]);
    set(subject, at, random.near_ends(0, most) as u8);
    Expected::Either
}

fn run_field_outside(random: &mut Random, subject: &mut Subject) -> Expected {
    let (chosen, _) = any_run(random, subject);
    let narrow: Vec<&Field<Run>> = RUN.iter().filter(|field| field.has_outside()).collect();
    let field = random.pick(&narrow);
    field.put_outside(random, &mut subject.job.runs[chosen]);
    FIELD
}

fn record_field_outside(random: &mut Random, subject: &mut Subject) -> Expected {
    let (chosen, _) = any_run(random, subject);
    let run = &mut subject.job.runs[chosen];
    let point = random.below(run.points.len());
    let segment = random.below(run.segments.len());
    match random.below(4) {
        0 => {
            let field = &POINT[random.below(POINT.len())];
            field.put_outside(random, &mut run.points[point]);
        }
        1 if !run.weighings.is_empty() => {
            let field = &WEIGHING[random.below(WEIGHING.len())];
            let weighing = random.below(run.weighings.len());
            field.put_outside(random, &mut run.weighings[weighing]);
        }
        2 => {
            let field = random.pick(&[&SEGMENT_LEAK, &SEGMENT_SECONDS]);
            field.put_outside(random, &mut run.segments[segment]);
        }
        _ => POINT_SECONDS.put_outside(random, &mut run.points[point]),
    }
    FIELD
}

/// Fields whose range hangs on another field, and the run's number.
fn dependent_field_outside(random: &mut Random, subject: &mut Subject) -> Expected {
    let (chosen, _) = any_run(random, subject);
    let run = &mut subject.job.runs[chosen];
    match random.below(8) {
        0 => run.number = random.pick(&[0, 1_000, 65_535]),
        1 => run.co2 = random.pick(&[1_001, 65_535]),
        2 => run.o2 = 1_001_u16.saturating_sub(run.co2).max(1),
        3 => run.first_reading = random.pick(&[1_000_000_000, u32::MAX]),
        4 => run.last_reading = run.first_reading.wrapping_sub(1),
        5 => run.last_reading = run.first_reading.saturating_add(1_000_000),
        6 => run.sides[0] = random.pick(&[0, 10_000, 65_535]),
        _ => {
            run.sides[1] = match run.shape {
                Shape::Round => random.pick(&[1, 256, 65_535]),
                Shape::Rectangular => random.pick(&[0, 10_000, 65_535]),
            }
        }
    }
    FIELD
}

/// A random certificate's instrument, or one that a random run names.
fn any_instrument<'a>(random: &mut Random, subject: &'a mut Subject) -> &'a mut Instrument {
    let (chosen, _) = any_run(random, subject);
    let Job {
        certificates, runs, ..
    } = &mut subject.job;
    let certificate = random.below(certificates.len().max(1));
    let run = &mut runs[chosen];
    match (random.below(4), certificates.get_mut(certificate)) {
        (0, Some(certificate)) => &mut certificate.instrument,
        (1, _) => &mut run.meter,
        (2, _) => &mut run.pitot,
        _ => &mut run.nozzle,
    }
}

fn instrument_outside(random: &mut Random, subject: &mut Subject) -> Expected {
    let instrument = any_instrument(random, subject);
    if random.percent(25) {
        instrument.serial = 0;
    } else {
        instrument.maker[random.below(3)] = random.pick(b"@[`az\x00\xff");
    }
    FIELD
}

fn letter_outside(random: &mut Random, subject: &mut Subject) -> Expected {
    if !subject.job.version.has_letters() {
        return instrument_outside(random, subject);
    }
    any_instrument(random, subject).letter = random.pick(b"@[`az\x01\xff");
    FIELD
}

fn certificate_value_outside(random: &mut Random, subject: &mut Subject) -> Expected {
    if subject.job.certificates.is_empty() {
        return run_field_outside(random, subject);
    }
    let chosen = random.below(subject.job.certificates.len());
    let certificate = &mut subject.job.certificates[chosen];
    let value = random.below(3);
    certificate.values[value] = match (certificate.kind, value) {
        (Kind::Meter, 0) => random.pick(&[0, 8_999, 11_001, 65_535]),
        (Kind::Pitot, 0) => random.pick(&[0, 499, 1_001, 65_535]),
        (Kind::Nozzle, _) => random.pick(&[0, 99, 1_001, 65_535]),
        (Kind::Meter | Kind::Pitot, _) => random.pick(&[1, 256, 10_000]),
    };
    FIELD
}

/// Kinds, shapes, and the bytes that only hold 0.
fn chosen_byte_outside(random: &mut Random, subject: &mut Subject) -> Expected {
    let (chosen, start) = any_run(random, subject);
    let version = subject.job.version;
    let run = &subject.job.runs[chosen];
    let weighing = start + run_length(version, run) - WEIGHING_LENGTH;
    let shape = start + behind_letters(version, SHAPE);
    let spare = start + behind_letters(version, SPARE);
    let mut choices = vec![(shape, 0), (shape, 3), (spare, 1), (spare, 255)];
    if !run.weighings.is_empty() {
        choices.extend([(weighing, 0), (weighing, 3), (weighing + 1, 1)]);
    }
    if !subject.job.certificates.is_empty() {
        let certificate = random.below(subject.job.certificates.len());
        let start = HEADER_LENGTH + certificate * version.certificate_length();
        choices.extend([(start, 0), (start, 4), (start, 255)]);
    }
    let (at, value) = random.pick(&choices);
    set(subject, at, value);
    FIELD
}

/// Repeats one somewhere, perhaps with other values.
fn repeat_certificate(random: &mut Random, subject: &mut Subject) -> Expected {
    let certificates = &mut subject.job.certificates;
    if certificates.is_empty() {
        return leave_over(random, subject);
    }
    let chosen = random.below(certificates.len());
    let mut again = certificates[chosen];
    if random.percent(50) {
        again.values[0] = match again.kind {
            Kind::Meter => 9_500,
            Kind::Pitot => 700,
            Kind::Nozzle => 300,
        };
    }
    // A full list has room for it only in another's place.
    if certificates.len() == 64 {
        certificates.remove((chosen + 1) % 64);
    }
    let at = random.below(certificates.len() + 1);
    certificates.insert(at, again);
    Expected::Refused(6)
}

fn run_number_not_above(random: &mut Random, subject: &mut Subject) -> Expected {
    let runs = &mut subject.job.runs;
    if runs.len() < 2 {
        let again = runs[0].clone();
        runs.push(again);
        return Expected::Refused(6);
    }
    let later = 1 + random.below(runs.len() - 1);
    let before = runs[later - 1].number;
    runs[later].number = random.near_ends(1, i64::from(before.max(1))) as u16;
    Expected::Refused(6)
}

/// Either the points last too long, or the segments not as long as they.
fn seconds_disagree(random: &mut Random, subject: &mut Subject) -> Expected {
    let (chosen, _) = any_run(random, subject);
    let run = &mut subject.job.runs[chosen];
    let point = random.below(run.points.len());
    let segment = random.below(run.segments.len());
    let lasts = run.points[point].seconds;
    let total: u32 = run.points.iter().map(|p| u32::from(p.seconds)).sum();
    let too_long = 36_001_u32.saturating_sub(total - u32::from(lasts));
    if random.percent(50) && (u32::from(lasts) + 1..=36_000).contains(&too_long) {
        let more = too_long as u16 - lasts;
        run.points[point].seconds = too_long as u16;
        // The segments last as long as the points where one has room for it.
        if let Some(room) = run.segments.iter_mut().find(|s| s.seconds <= 36_000 - more) {
            room.seconds += more;
        }
        return Expected::Refused(7);
    }
    let seconds = &mut run.segments[segment].seconds;
    *seconds = if *seconds > 1 {
        *seconds - 1
    } else {
        *seconds + 1
    };
    Expected::Refused(7)
}
