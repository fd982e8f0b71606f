//! A small generator with a fixed seed (splitmix64), so that a case can be
//! made again from its name.

use std::ops::RangeInclusive;

use independent::job::Version;

/// How far the seeds of the versions' cases are apart: more than there are cases.
const VERSIONS_APART: u64 = 0x8_0000;

pub struct Random(u64);

impl Random {
    pub fn new(seed: u64) -> Self {
        Random(seed)
    }

    /// For the case of that index among those of its kind and version.
    pub fn for_case(seed: u64, version: Version, index: u64) -> Self {
        Random::new(seed + version as u64 * VERSIONS_APART + index)
    }

    pub fn word(&mut self) -> u64 {
        self.0 = self.0.wrapping_add(0x9E37_79B9_7F4A_7C15);
        let mut z = self.0;
        z = (z ^ (z >> 30)).wrapping_mul(0xBF58_476D_1CE4_E5B9);
        z = (z ^ (z >> 27)).wrapping_mul(0x94D0_49BB_1331_11EB);
        z ^ (z >> 31)
    }

    pub fn byte(&mut self) -> u8 {
        self.word() as u8
    }

    /// A whole number within the range, each about as likely.
    pub fn within(&mut self, range: RangeInclusive<i64>) -> i64 {
        let (least, greatest) = range.into_inner();
        let values = (greatest - least) as u64 + 1;
        least + (self.word() % values) as i64
    }

    /// A whole number within the range, its ends and their neighbors likelier.
    pub fn near_ends(&mut self, least: i64, greatest: i64) -> i64 {
        let value = match self.below(6) {
            0 => least,
            1 => least + 1,
            2 => greatest - 1,
            3 => greatest,
            _ => self.within(least..=greatest),
        };
        value.clamp(least, greatest)
    }

    /// An index below the length, which is above 0.
    pub fn below(&mut self, length: usize) -> usize {
        (self.word() % length as u64) as usize
    }

    pub fn percent(&mut self, chance: u64) -> bool {
        self.word() % 100 < chance
    }

    pub fn pick<T: Copy>(&mut self, choices: &[T]) -> T {
        choices[self.below(choices.len())]
    }

    pub fn shuffle<T>(&mut self, items: &mut [T]) {
        for last in (1..items.len()).rev() {
            items.swap(last, self.below(last + 1));
        }
    }
}
