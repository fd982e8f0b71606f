//! The worked job in a version: itself, with the least gas, at the limits of the
//! percent isokinetic and of a weighing, with a rebuilt meter, with factors that moved,
//! each of its truncations, and each change of one byte.

use independent::job::{Job, Version};
use independent::samples;

use crate::case::{Case, Change, Expected};
use crate::versions::{in_version, moved_factor, rebuilt_meter};

fn worked(version: Version) -> Job {
    in_version(version, samples::worked())
}

/// Itself and what it becomes by other values.
pub fn read(version: Version) -> [Case; 6] {
    let read = |name: &str, job| Case::of_job(name.into(), job, Expected::Read);
    let sample = |name, sample| read(name, in_version(version, sample));
    [
        read("the worked job", worked(version)),
        sample("the worked job with the least gas", samples::thinnest()),
        sample(
            "the worked job at the limits of the percent isokinetic",
            samples::percent_limits(),
        ),
        sample(
            "the worked job at the limits of a weighing",
            samples::weighing_limits(),
        ),
        read(
            "the worked job with a rebuilt meter",
            rebuilt_meter(version),
        ),
        read(
            "the worked job with factors that moved",
            moved_factor(version),
        ),
    ]
}

/// Every shorter file, the empty one included.
pub fn truncations(version: Version) -> impl Iterator<Item = Case> {
    let length = worked(version).bytes().len();
    (0..length).map(move |length| {
        let name = format!("the worked job cut to {length} bytes");
        let changes = vec![Change::Cut { length }];
        Case::changed(name, worked(version), changes, Expected::Refused(1))
    })
}

/// Every byte given every other value, or telling ones.
pub fn changes(version: Version, every_value: bool) -> impl Iterator<Item = Case> {
    let values = match every_value {
        true => other_values,
        false => telling_values,
    };
    changes_to(version, values)
}

pub fn telling_changes(version: Version) -> impl Iterator<Item = Case> {
    changes_to(version, telling_values)
}

pub fn other_values(byte: u8) -> Vec<u8> {
    (0..=255).filter(|&value| value != byte).collect()
}

/// A few other values: where limits and signs are crossed.
pub fn telling_values(byte: u8) -> Vec<u8> {
    let near = [byte.wrapping_add(1), byte.wrapping_sub(1)];
    let flipped = [byte ^ 1, byte ^ 0x80];
    let mut values = [&[0, 1, 255], &near[..], &flipped[..]].concat();
    values.sort();
    values.dedup();
    values.retain(|&value| value != byte);
    values
}

fn changes_to(version: Version, values: fn(u8) -> Vec<u8>) -> impl Iterator<Item = Case> {
    let bytes = worked(version).bytes().into_iter().enumerate();
    bytes.flat_map(move |(at, byte)| {
        values(byte).into_iter().map(move |value| {
            let name = format!("the worked job with byte {at} set to {value}");
            let changes = vec![Change::Set { at, value }];
            Case::changed(name, worked(version), changes, Expected::Either)
        })
    })
}
