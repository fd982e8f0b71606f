//! The sizes of a layout, in their file's units or in inches. A size in inches has
//! to come out in whole units, because nothing is rounded that the crew did not round.

use std::ffi::OsStr;

use crate::complaint::{shown, Complaint};
use crate::number::{is_digits, whole};

/// A size that is asked for, and its unit: 10 to the power of -`decimals` in.
pub(crate) struct Size {
    pub name: &'static str,
    pub decimals: usize,
    /// How one is written in inches.
    pub example: &'static str,
}

/// What comes behind a number of inches.
const INCHES: &str = "in";

impl Size {
    /// The word in units: a bare whole number is units already.
    pub fn units(&self, word: &OsStr) -> Result<u16, Complaint> {
        let text = word.to_str().unwrap_or("");
        let units = if let Some(units) = whole(text) {
            units
        } else if let Some(inches) = text.strip_suffix(INCHES).and_then(Decimal::read) {
            let units = inches.units(self.decimals);
            units.ok_or_else(|| self.uneven(text))?
        } else if Decimal::read(text).is_some() {
            return Err(self.without_unit(text));
        } else {
            return Err(self.no_size(word));
        };
        u16::try_from(units).map_err(|_| self.too_large(text))
    }

    /// Units as inches: `24.0 in`.
    pub fn shown(&self, units: u16) -> String {
        let decimals = self.decimals;
        let in_an_inch = 10u64.pow(decimals as u32);
        let (inches, part) = (u64::from(units) / in_an_inch, u64::from(units) % in_an_inch);
        format!("{inches}.{part:0decimals$} in")
    }

    /// One unit.
    fn step(&self) -> String {
        self.shown(1)
    }

    fn uneven(&self, text: &str) -> Complaint {
        let (name, step) = (self.name, self.step());
        format!("the {name} {text} is no whole number of steps of {step}, and it is not rounded.")
            .into()
    }

    fn without_unit(&self, text: &str) -> Complaint {
        let name = self.name;
        format!("the {name} {text} has a point and no unit: write {text}{INCHES} for inches.")
            .into()
    }

    fn no_size(&self, word: &OsStr) -> Complaint {
        let (name, word) = (self.name, shown(word));
        let (step, example) = (self.step(), self.example);
        format!(
            "the {name} {word} is neither a whole number of steps of {step} nor inches such as \
             {example}."
        )
        .into()
    }

    fn too_large(&self, text: &str) -> Complaint {
        let (name, greatest) = (self.name, self.shown(u16::MAX));
        format!("the {name} {text} is above the greatest that can be asked, {greatest}.").into()
    }
}

/// A number with or without a point: at least one digit before it and, where
/// it is there, after it.
struct Decimal<'a> {
    before: &'a str,
    after: &'a str,
}

impl<'a> Decimal<'a> {
    fn read(text: &'a str) -> Option<Self> {
        let (before, after) = text.split_once('.').unwrap_or((text, "0"));
        (is_digits(before) && is_digits(after)).then_some(Decimal { before, after })
    }

    /// The number in units of 10 to the power of -`decimals`, if it is a whole
    /// number of them.
    fn units(&self, decimals: usize) -> Option<u64> {
        let after = self.after.trim_end_matches('0');
        let zeros = "0".repeat(decimals.checked_sub(after.len())?);
        whole(&format!("{}{after}{zeros}", self.before))
    }
}

#[cfg(test)]
mod tests {
    use super::*;

    const SIDE: Size = Size {
        name: "side",
        decimals: 1,
        example: "24.0in",
    };
    const NOZZLE: Size = Size {
        name: "nozzle",
        decimals: 3,
        example: "0.25in",
    };

    fn units(size: &Size, word: &str) -> Result<u16, String> {
        size.units(OsStr::new(word))
            .map_err(|complaint| complaint.sentence().into())
    }

    #[test]
    fn a_bare_whole_number_is_units() {
        assert_eq!(units(&SIDE, "240"), Ok(240));
        assert_eq!(units(&NOZZLE, "250"), Ok(250));
        assert_eq!(units(&SIDE, "0"), Ok(0));
        assert_eq!(units(&SIDE, "65535"), Ok(65_535));
        assert_eq!(units(&SIDE, "000240"), Ok(240));
    }

    #[test]
    fn inches_come_out_in_units() {
        for word in ["24in", "24.0in", "24.00in", "024.000000in"] {
            assert_eq!(units(&SIDE, word), Ok(240), "{word}");
        }
        assert_eq!(units(&SIDE, "24.1in"), Ok(241));
        assert_eq!(units(&SIDE, "0.1in"), Ok(1));
        assert_eq!(units(&NOZZLE, "0.25in"), Ok(250));
        assert_eq!(units(&NOZZLE, "0.250in"), Ok(250));
        assert_eq!(units(&NOZZLE, "1in"), Ok(1_000));
        assert_eq!(units(&SIDE, "6553.5in"), Ok(65_535));
        assert_eq!(units(&NOZZLE, "65.535in"), Ok(65_535));
    }

    #[test]
    fn inches_between_two_units_are_refused_with_the_step() {
        assert_eq!(
            units(&SIDE, "24.05in").unwrap_err(),
            "the side 24.05in is no whole number of steps of 0.1 in, and it is not rounded."
        );
        assert_eq!(
            units(&NOZZLE, "0.2505in").unwrap_err(),
            "the nozzle 0.2505in is no whole number of steps of 0.001 in, and it is not rounded."
        );
        assert!(units(&SIDE, "24.0000000000000000000000001in").is_err());
    }

    #[test]
    fn a_bare_number_with_a_point_is_told_how_inches_are_written() {
        assert_eq!(
            units(&SIDE, "24.0").unwrap_err(),
            "the side 24.0 has a point and no unit: write 24.0in for inches."
        );
    }

    #[test]
    fn above_the_greatest_is_refused() {
        for word in ["65536", "6553.6in", "6554in", "99999999999999999999999"] {
            let sentence = units(&SIDE, word).unwrap_err();
            assert!(sentence.ends_with("6553.5 in."), "{sentence}");
        }
        let sentence = units(&NOZZLE, "65.536in").unwrap_err();
        assert!(sentence.ends_with("65.535 in."), "{sentence}");
    }

    #[test]
    fn what_is_no_number_is_refused() {
        for word in [
            "", "in", "x", "24.in", ".5in", ".in", "24.", ".5", "1.2.3in", "+24", "+24in", "-24in",
            "24 in", " 24", "24IN", "24inin", "24ft", "2_4", "1e2", "٢٤",
        ] {
            let sentence = units(&SIDE, word).unwrap_err();
            assert!(sentence.contains("is neither a whole number"), "{sentence}");
        }
    }

    #[test]
    fn units_are_shown_in_inches() {
        assert_eq!(SIDE.shown(240), "24.0 in");
        assert_eq!(SIDE.shown(5), "0.5 in");
        assert_eq!(NOZZLE.shown(250), "0.250 in");
        assert_eq!(NOZZLE.shown(1_001), "1.001 in");
    }
}
