//! A condition of a rule: the two numbers that it compares, the way in which the left
//! one stands to the right one when it is broken, and what they are in words.

use std::cmp::Ordering;

use crate::lines::Isokinetic;

/// The discriminants are the numbers of the ways.
#[derive(Clone, Copy, Debug, PartialEq, Eq)]
pub enum Way {
    Below = 1,
    Above = 2,
    Equal = 3,
    Differs = 4,
}

/// What is compared with a whole number.
#[derive(Clone, Copy, Debug)]
enum Left {
    Whole(i64),
    /// Compared as the fraction that it is, and told by quotient and remainder.
    Percent(Isokinetic),
}

#[derive(Clone, Copy, Debug)]
pub struct Condition {
    left: Left,
    pub way: Way,
    pub right: i64,
    /// Of the left number and then of the right one.
    pub words: &'static str,
}

impl Condition {
    pub fn below(left: i64, right: i64, words: &'static str) -> Self {
        Condition::whole(left, Way::Below, right, words)
    }

    pub fn above(left: i64, right: i64, words: &'static str) -> Self {
        Condition::whole(left, Way::Above, right, words)
    }

    pub fn equal(left: i64, right: i64, words: &'static str) -> Self {
        Condition::whole(left, Way::Equal, right, words)
    }

    pub fn differs(left: i64, right: i64, words: &'static str) -> Self {
        Condition::whole(left, Way::Differs, right, words)
    }

    fn whole(left: i64, way: Way, right: i64, words: &'static str) -> Self {
        Condition {
            left: Left::Whole(left),
            way,
            right,
            words,
        }
    }

    pub fn percent(exact: Isokinetic, way: Way, limit: i64, words: &'static str) -> Self {
        Condition {
            left: Left::Percent(exact),
            way,
            right: limit,
            words,
        }
    }

    pub fn is_broken(&self) -> bool {
        let stands = match self.left {
            Left::Whole(left) => left.cmp(&self.right),
            Left::Percent(exact) => exact.against(self.right),
        };
        match self.way {
            Way::Below => stands == Ordering::Less,
            Way::Above => stands == Ordering::Greater,
            Way::Equal => stands == Ordering::Equal,
            Way::Differs => stands != Ordering::Equal,
        }
    }

    /// The left number, of a fraction its quotient.
    pub fn left(&self) -> i64 {
        match self.left {
            Left::Whole(left) => left,
            Left::Percent(exact) => exact.quotient(),
        }
    }

    /// None where no quotient is compared.
    pub fn remainder(&self) -> Option<i64> {
        match self.left {
            Left::Whole(_) => None,
            Left::Percent(exact) => Some(exact.remainder()),
        }
    }
}

#[cfg(test)]
mod tests {
    use super::*;

    #[test]
    fn each_way_is_broken_on_its_own_side() {
        let broken = |left| {
            let made = [
                Condition::below,
                Condition::above,
                Condition::equal,
                Condition::differs,
            ];
            made.map(|condition| condition(left, -5, "").is_broken())
        };
        assert_eq!(broken(-6), [true, false, false, true]);
        assert_eq!(broken(-5), [false, false, true, false]);
        assert_eq!(broken(-4), [false, true, false, true]);
    }
}
