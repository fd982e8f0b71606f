//! Where each field of a figure stands, by the figure's own counts.

use crate::field::numbers::ordinal;
use crate::field::rows::{Field, Record, FIGURE_HEADER, STEP, STEPS};

/// The two lists of a figure, in file order.
const LISTS: [&str; 2] = ["from the last disturbance", "to the next disturbance"];

/// What a field of a figure belongs to: the steps of a list are counted from 1.
#[derive(Clone, Copy, Debug, PartialEq, Eq)]
pub enum Of {
    Header,
    List(&'static str),
    Step(&'static str, usize),
}

/// A field, what it belongs to, where it starts, and its bytes: fewer than it has
/// where the figure ends within it.
#[derive(Clone, Copy, Debug)]
pub struct Placed<'a> {
    pub row: &'static Field,
    pub of: Of,
    pub start: usize,
    pub bytes: &'a [u8],
}

impl Placed<'_> {
    pub fn end(&self) -> usize {
        self.start + self.bytes.len()
    }

    pub fn is_complete(&self) -> bool {
        self.bytes.len() == self.row.holds.length()
    }

    /// The number in it, if it is complete.
    pub fn number(&self) -> Option<i64> {
        self.row.holds.number(self.bytes)
    }

    /// Its name in a sentence: `the least distance of the 2nd step to the next
    /// disturbance`.
    pub fn name(&self) -> String {
        let name = self.row.name;
        match self.of {
            Of::Header => format!("the {name}"),
            Of::List(list) => format!("the {name} {list}"),
            Of::Step(list, step) => format!("the {name} of the {} step {list}", ordinal(step)),
        }
    }
}

/// The fields in file order, the last of them incomplete if the figure ends within
/// one; whether a field is complete is asked of each for itself.
pub fn fields(figure: &[u8]) -> Vec<Placed<'_>> {
    let mut walk = Walk {
        figure,
        fields: Vec::new(),
    };
    // Where the figure ends too early, the walk has what there is.
    let _ = walk.figure();
    walk.fields
}

struct Walk<'a> {
    figure: &'a [u8],
    fields: Vec<Placed<'a>>,
}

/// The figure ended within a field.
struct Ended;

impl Walk<'_> {
    fn figure(&mut self) -> Result<(), Ended> {
        self.record(&FIGURE_HEADER, Of::Header)?;
        for list in LISTS {
            self.record(&STEPS, Of::List(list))?;
            for step in 1..=self.last_number() {
                self.record(&STEP, Of::Step(list, step))?;
            }
        }
        Ok(())
    }

    fn record(&mut self, record: &Record, of: Of) -> Result<(), Ended> {
        record
            .fields
            .iter()
            .try_for_each(|field| self.next(field, of))
    }

    fn next(&mut self, row: &'static Field, of: Of) -> Result<(), Ended> {
        let start = self.fields.last().map_or(0, Placed::end);
        let left = &self.figure[start..];
        let field = Placed {
            row,
            of,
            start,
            bytes: &left[..row.holds.length().min(left.len())],
        };
        self.fields.push(field);
        if field.is_complete() {
            Ok(())
        } else {
            Err(Ended)
        }
    }

    fn last_number(&self) -> usize {
        let number = self.fields.last().and_then(Placed::number);
        number.and_then(|count| count.try_into().ok()).unwrap_or(0)
    }
}
