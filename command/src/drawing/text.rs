//! Text on a page. The font has characters of one width, so that how much room
//! a text takes is known here and does not depend on who draws it.

use super::page::{at, Place, Shape};

/// A character's width in parts of the font's size: 0.602 in the usual fonts,
/// and a little more to be safe.
const CHARACTER: f64 = 0.61;
/// How far characters reach above the line they stand on, and below it.
const ASCENT: f64 = 0.78;
const DESCENT: f64 = 0.24;
/// The same for figures.
const FIGURE_ASCENT: f64 = 0.75;
const FIGURE_DESCENT: f64 = 0.02;

/// The size of sentences and of names.
pub const NAME: f64 = 9.0;

pub struct Text {
    pub words: String,
    /// The font's size.
    pub size: f64,
    pub bold: bool,
    /// Reads upwards.
    pub turned: bool,
    pub anchor: Anchor,
    /// Where the text starts, ends or has its middle, on the line that its
    /// characters stand on.
    pub base: Place,
}

#[derive(Clone, Copy, Debug, PartialEq, Eq)]
pub enum Anchor {
    Start,
    Middle,
    End,
}

/// The room that a text takes.
#[cfg(test)]
#[derive(Clone, Copy, Debug)]
pub struct Room {
    pub left: f64,
    pub top: f64,
    pub right: f64,
    pub bottom: f64,
}

impl Text {
    pub fn new(words: impl Into<String>, size: f64) -> Text {
        Text {
            words: words.into(),
            size,
            bold: false,
            turned: false,
            anchor: Anchor::Start,
            base: at(0.0, 0.0),
        }
    }

    pub fn bold(self) -> Text {
        Text { bold: true, ..self }
    }

    pub fn turned(self) -> Text {
        Text {
            turned: true,
            ..self
        }
    }

    /// With the middle of its left edge there; turned, that of its lower edge.
    pub fn starting(self, there: Place) -> Shape {
        self.placed(Anchor::Start, there)
    }

    /// With the middle of its right edge there; turned, that of its upper edge.
    pub fn ending(self, there: Place) -> Shape {
        self.placed(Anchor::End, there)
    }

    pub fn centered(self, there: Place) -> Shape {
        self.placed(Anchor::Middle, there)
    }

    fn placed(self, anchor: Anchor, there: Place) -> Shape {
        let (ascent, descent) = self.reach();
        let drop = (ascent - descent) / 2.0;
        let base = if self.turned {
            at(there.x + drop, there.y)
        } else {
            at(there.x, there.y + drop)
        };
        Shape::Text(Text {
            anchor,
            base,
            ..self
        })
    }

    /// How far it runs in the direction of reading.
    pub fn length(&self) -> f64 {
        self.words.chars().count() as f64 * CHARACTER * self.size
    }

    /// How far it reaches at right angles to that.
    pub fn thickness(&self) -> f64 {
        let (ascent, descent) = self.reach();
        ascent + descent
    }

    fn reach(&self) -> (f64, f64) {
        let is_figure = |character: char| character.is_ascii_digit() || ".-".contains(character);
        if self.words.chars().all(is_figure) {
            (FIGURE_ASCENT * self.size, FIGURE_DESCENT * self.size)
        } else {
            (ASCENT * self.size, DESCENT * self.size)
        }
    }

    #[cfg(test)]
    pub fn room(&self) -> Room {
        let before = match self.anchor {
            Anchor::Start => 0.0,
            Anchor::Middle => self.length() / 2.0,
            Anchor::End => self.length(),
        };
        let after = self.length() - before;
        let (ascent, descent) = self.reach();
        let Place { x, y } = self.base;
        if self.turned {
            Room {
                left: x - ascent,
                top: y - after,
                right: x + descent,
                bottom: y + before,
            }
        } else {
            Room {
                left: x - before,
                top: y - ascent,
                right: x + after,
                bottom: y + descent,
            }
        }
    }
}

/// How many characters of that size stand side by side in a width.
pub fn characters(width: f64, size: f64) -> usize {
    (width / (CHARACTER * size)) as usize
}
