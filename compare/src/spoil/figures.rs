//! Ways to damage a figure that is read, each of which has to be refused.

use independent::figure::*;

use crate::case::Change;
use crate::random::Random;

/// A figure made from values, then changed byte by byte.
pub struct Drawn {
    pub figure: Figure,
    pub changes: Vec<Change>,
}

impl Drawn {
    pub fn bytes(&self) -> Vec<u8> {
        Change::all_applied(&self.changes, self.figure.bytes())
    }
}

pub type Spoil = fn(&mut Random, &mut Drawn);

pub const SPOILS: [(&str, Spoil); 8] = [
    ("cut short", cut),
    ("bytes left over", leave_over),
    ("wrong mark", wrong_mark),
    ("wrong version", wrong_version),
    ("wrong number of steps", wrong_count),
    ("distance that does not rise", distance_not_rising),
    ("points outside", points_outside),
    ("points that rise", points_rising),
];

fn cut(random: &mut Random, drawn: &mut Drawn) {
    let length = random.below(drawn.bytes().len().max(1));
    drawn.changes.push(Change::Cut { length });
}

fn leave_over(random: &mut Random, drawn: &mut Drawn) {
    let length = random.pick(&[1, 2, 4, 300]);
    let more = (0..length).map(|_| random.byte()).collect();
    drawn.changes.push(Change::Append(more));
}

fn set(drawn: &mut Drawn, at: usize, value: u8) {
    drawn.changes.push(Change::Set { at, value });
}

fn wrong_mark(random: &mut Random, drawn: &mut Drawn) {
    let at = random.below(MARK.len());
    set(drawn, at, random.pick(&[0, b'f', b'X', 255]));
}

fn wrong_version(random: &mut Random, drawn: &mut Drawn) {
    let version: u16 = random.pick(&[0, 2, 255, 256, 257, 65_535]);
    let [low, high] = version.to_le_bytes();
    set(drawn, MARK.len(), low);
    set(drawn, MARK.len() + 1, high);
}

/// One that no list has, or one more or less than there are steps to the next
/// disturbance.
fn wrong_count(random: &mut Random, drawn: &mut Drawn) {
    let last_count = HEADER_LENGTH;
    let next_count = last_count + 1 + STEP_LENGTH * drawn.figure.from_last.len();
    let next_steps = drawn.figure.to_next.len() as u8;
    let (at, count) = random.pick(&[
        (last_count, 0),
        (last_count, MOST_STEPS + 1),
        (last_count, 255),
        (next_count, 0),
        (next_count, MOST_STEPS + 1),
        (next_count, next_steps - 1),
        (next_count, next_steps + 1),
    ]);
    set(drawn, at, count);
}

/// Two steps of one list that follow one another; a second one is put there if need be.
fn two_steps<'a>(random: &mut Random, drawn: &'a mut Drawn) -> (Step, &'a mut Step) {
    let steps = match random.percent(50) {
        true => &mut drawn.figure.from_last,
        false => &mut drawn.figure.to_next,
    };
    if steps.len() == 1 {
        let least_distance = steps[0].least_distance.saturating_add(1);
        steps.push(Step {
            least_distance,
            ..steps[0]
        });
    }
    let second = 1 + random.below(steps.len() - 1);
    (steps[second - 1], &mut steps[second])
}

fn distance_not_rising(random: &mut Random, drawn: &mut Drawn) {
    let (first, second) = two_steps(random, drawn);
    second.least_distance = random.near_ends(0, i64::from(first.least_distance)) as u16;
}

fn points_outside(random: &mut Random, drawn: &mut Drawn) {
    let (_, step) = two_steps(random, drawn);
    match random.percent(50) {
        true => step.round = random.pick(&[0, MOST_ROUND + 1, MOST_ROUND + 2, 255]),
        false => step.rectangular = random.pick(&[0, MOST_RECTANGULAR + 1, 255]),
    }
}

/// Past the most there may be where the first step has that.
fn points_rising(random: &mut Random, drawn: &mut Drawn) {
    let (first, second) = two_steps(random, drawn);
    match random.percent(50) {
        true => second.round = first.round.saturating_add(1),
        false => second.rectangular = first.rectangular.saturating_add(1),
    }
}
