//! A line of a run's sheet.

use std::fmt;

use crate::outputs::LINE_LENGTH;
use crate::texts;

/// A line: its number, 1 to 20, and its value as a whole number, `None` if the
/// line is absent.
///
/// It is displayed as a row of the sheet in words:
///
/// ```
/// use leverbonnet::Line;
///
/// let line = Line { number: 18, value: Some(9_980) };
/// assert_eq!(line.to_string(), "18    Percent isokinetic  99.80 %");
/// assert_eq!((line.name(), line.unit()), ("Percent isokinetic", "%"));
/// assert_eq!(line.amount(), "99.80");
/// ```
#[derive(Clone, Copy, Debug, PartialEq, Eq)]
pub struct Line {
    pub number: u8,
    pub value: Option<i64>,
}

impl Line {
    /// From the 9 bytes that `reduce` writes of the line of that number: 1 if it
    /// is present, then its value. Where the first byte is not 1 it is absent.
    pub fn from_bytes(number: u8, bytes: &[u8; LINE_LENGTH]) -> Self {
        let [present, value @ ..] = *bytes;
        Line {
            number,
            value: (present == 1).then(|| i64::from_le_bytes(value)),
        }
    }

    /// What it is called.
    pub fn name(&self) -> &'static str {
        texts::line(self.number).map_or(texts::NO_LINE, |text| text.name)
    }

    /// The unit of its amount, present or not.
    pub fn unit(&self) -> &'static str {
        texts::line(self.number).map_or("", |text| text.unit)
    }

    /// Its value in its unit, or `absent`.
    pub fn amount(&self) -> String {
        let decimals = texts::line(self.number).map_or(0, |text| text.decimals);
        match self.value {
            Some(value) => decimal(value, decimals),
            None => "absent".into(),
        }
    }
}

impl fmt::Display for Line {
    fn fmt(&self, f: &mut fmt::Formatter) -> fmt::Result {
        let (number, name, amount) = (self.number, self.name(), self.amount());
        write!(f, "{number:2}  {name:>20}  {amount}")?;
        match (self.value, self.unit()) {
            (None, _) | (_, "") => Ok(()),
            (Some(_), unit) => write!(f, " {unit}"),
        }
    }
}

/// The value over 10 to the power of `decimals`.
fn decimal(value: i64, decimals: usize) -> String {
    let sign = if value < 0 { "-" } else { "" };
    // At least one digit stands before the point.
    let digits = format!("{:0width$}", value.unsigned_abs(), width = decimals + 1);
    let (whole, part) = digits.split_at(digits.len() - decimals);
    let point = if part.is_empty() { "" } else { "." };
    format!("{sign}{whole}{point}{part}")
}
