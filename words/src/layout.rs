//! layout round POINTS DIAMETER NOZZLE [--svg]
//! layout rect POINTS FIRST SECOND [--svg]

use std::fmt;

use crate::command::{Asked, Command};
use crate::complaint::{shown, Complaint};
use crate::given::{Given, Known};
use crate::number::number;
use crate::size::Size;
use crate::Work;

const ROUND: &str = "layout round POINTS DIAMETER NOZZLE [--svg]";
const RECTANGULAR: &str = "layout rect POINTS FIRST SECOND [--svg]";
const SVG: Known = Known {
    name: "--svg",
    takes: None,
};

pub(crate) const COMMAND: Command = Command {
    name: "layout",
    usage: &[
        [ROUND, "the points of a round stack"],
        [RECTANGULAR, "the points of a rectangular stack"],
    ],
    about: "\
Each line is a point's number and its distance from the wall in 0.001 in; in a
rectangular stack, its distances along the first and the second side.

--svg draws the layout in place of the list, on a page of 8.5 by 11 in to print
and tape to the port: ports, zero walls, and every point with its number and its
distances in inches.

A size is inches with in behind it: 24in, 24.0in, 0.25in. A bare whole number
is a diameter or a side in 0.1 in and a nozzle in 0.001 in. What was understood
is said on standard error.

A round stack has an even number of points on its diameter, 2 to 24; a diameter
of 12 to 999.9 in; a nozzle of 0.1 to 1 in. A rectangular one has 9, 12, 16, 20,
25, 30, 36, 42 or 49 points; sides of 0.1 to 999.9 in; a diameter 2LW/(L+W) of 12
in or more. Outside of this a layout is refused.
",
    options: &[SVG],
    read,
};

const DIAMETER: Size = side("diameter");
const FIRST: Size = side("first side");
const SECOND: Size = side("second side");
const NOZZLE: Size = Size {
    name: "nozzle",
    decimals: 3,
    example: "0.25in",
};

const fn side(name: &'static str) -> Size {
    Size {
        name,
        decimals: 1,
        example: "24.0in",
    }
}

/// A layout that is asked for; whether it is within its ranges is for the
/// proved call to say.
#[derive(Clone, Copy, Debug, PartialEq, Eq)]
pub struct Layout {
    pub stack: Stack,
    pub points: u16,
    /// As a drawing in place of the list.
    pub drawn: bool,
}

/// Diameter and sides in 0.1 in, nozzle in 0.001 in.
#[derive(Clone, Copy, Debug, PartialEq, Eq)]
pub enum Stack {
    Round { diameter: u16, nozzle: u16 },
    Rectangular { first: u16, second: u16 },
}

/// What was understood.
impl fmt::Display for Layout {
    fn fmt(&self, f: &mut fmt::Formatter) -> fmt::Result {
        let (shape, sizes) = match self.stack {
            Stack::Round { diameter, nozzle } => {
                ("round", [(DIAMETER, diameter), (NOZZLE, nozzle)])
            }
            Stack::Rectangular { first, second } => {
                ("rectangular", [(FIRST, first), (SECOND, second)])
            }
        };
        write!(f, "{shape}, {} points", self.points)?;
        for (size, units) in sizes {
            write!(f, ", {} {}", size.name, size.shown(units))?;
        }
        Ok(())
    }
}

fn read(mut given: Given) -> Result<Asked, Complaint> {
    let drawn = given.has(SVG.name);
    let shape = given.needed("the shape", &format!("{ROUND} or {RECTANGULAR}"))?;
    let (points, stack) = match shape.to_str() {
        Some("round") => {
            let (points, [diameter, nozzle]) = numbers(given, [DIAMETER, NOZZLE], ROUND)?;
            (points, Stack::Round { diameter, nozzle })
        }
        Some("rect") => {
            let (points, [first, second]) = numbers(given, [FIRST, SECOND], RECTANGULAR)?;
            (points, Stack::Rectangular { first, second })
        }
        _ => return Err(format!("the shape {} is neither round nor rect.", shown(&shape)).into()),
    };
    Ok(Asked::Work(Work::Layout(Layout {
        stack,
        points,
        drawn,
    })))
}

/// The number of points and the two sizes: whether all words are there, and
/// none besides, is judged before what they say.
fn numbers(mut given: Given, sizes: [Size; 2], usage: &str) -> Result<(u16, [u16; 2]), Complaint> {
    let points = given.needed("the number of points", usage)?;
    let first = given.needed(&format!("the {}", sizes[0].name), usage)?;
    let second = given.needed(&format!("the {}", sizes[1].name), usage)?;
    given.ended(usage)?;
    let points = number("number of points", &points)?;
    Ok((points, [sizes[0].units(&first)?, sizes[1].units(&second)?]))
}

#[cfg(test)]
mod tests {
    use super::*;
    use crate::command::asked;
    use std::ffi::OsString;

    fn words(words: &str) -> Result<Asked, Complaint> {
        asked(words.split(' ').map(OsString::from).collect())
    }

    fn layout(given: &str) -> Layout {
        match words(given) {
            Ok(Asked::Work(Work::Layout(layout))) => layout,
            other => panic!("{given}: {other:?}"),
        }
    }

    fn complaint(given: &str) -> String {
        words(given).unwrap_err().sentence().into()
    }

    #[test]
    fn a_round_layout_has_points_diameter_and_nozzle() {
        let expected = Layout {
            stack: Stack::Round {
                diameter: 240,
                nozzle: 250,
            },
            points: 6,
            drawn: false,
        };
        assert_eq!(layout("layout round 6 240 250"), expected);
        assert_eq!(layout("layout round 6 24.0in 0.25in"), expected);
    }

    #[test]
    fn a_rectangular_layout_has_points_and_two_sides() {
        let expected = Layout {
            stack: Stack::Rectangular {
                first: 400,
                second: 300,
            },
            points: 12,
            drawn: false,
        };
        assert_eq!(layout("layout rect 12 400 300"), expected);
        assert_eq!(layout("layout rect 12 40in 30in"), expected);
    }

    #[test]
    fn a_drawing_may_be_asked_for_anywhere() {
        for given in [
            "layout --svg round 6 240 250",
            "layout round --svg 6 240 250",
            "layout round 6 240 250 --svg",
        ] {
            assert!(layout(given).drawn, "{given}");
        }
    }

    #[test]
    fn what_was_understood_is_in_inches() {
        assert_eq!(
            layout("layout round 6 240 250").to_string(),
            "round, 6 points, diameter 24.0 in, nozzle 0.250 in"
        );
        assert_eq!(
            layout("layout rect 12 400 300").to_string(),
            "rectangular, 12 points, first side 40.0 in, second side 30.0 in"
        );
    }

    #[test]
    fn each_missing_word_is_named() {
        for (given, sentence) in [
            ("layout", "the shape is missing"),
            ("layout round", "the number of points is missing"),
            ("layout round x", "the diameter is missing"),
            ("layout round x y", "the nozzle is missing"),
            ("layout rect 9", "the first side is missing"),
            ("layout rect 9 400", "the second side is missing"),
        ] {
            assert!(complaint(given).starts_with(sentence), "{given}");
        }
    }

    #[test]
    fn a_spare_word_is_named() {
        let sentence = complaint("layout round 6 24 in 0.25in");
        assert!(sentence.starts_with("0.25in is one word too many"));
    }

    #[test]
    fn another_shape_is_refused() {
        assert_eq!(
            complaint("layout square 9 240 240"),
            "the shape square is neither round nor rect."
        );
    }

    #[test]
    fn each_bad_number_is_named() {
        for (given, sentence) in [
            ("layout round six 240 250", "the number of points six"),
            ("layout round 6 24.05in 250", "the diameter 24.05in"),
            ("layout round 6 240 0.25", "the nozzle 0.25"),
            ("layout rect 9 x 300", "the first side x"),
            ("layout rect 9 400 70000", "the second side 70000"),
        ] {
            assert!(complaint(given).starts_with(sentence), "{given}");
        }
    }
}
