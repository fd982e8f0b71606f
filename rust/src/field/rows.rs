//! The records of a job file and of a figure, and their fields: a row a field, as the
//! tables of docs/RULES.md have it.

use Type::{Letter, Letters, I16, U16, U32, U8};

/// A record of so many bytes in version 1, its fields in order of place.
#[derive(Clone, Copy, Debug, PartialEq, Eq)]
pub struct Record {
    pub length: usize,
    pub fields: &'static [Field],
}

/// A field: its place in the record in version 1, its type, its name, its range and
/// its unit in words. A field without a range may have any value that its type
/// holds. A letter, which only version 2 has, is put in at its place, and moves
/// the fields behind it by 1.
#[derive(Clone, Copy, Debug, PartialEq, Eq)]
pub struct Field {
    pub at: usize,
    pub holds: Type,
    pub name: &'static str,
    pub range: &'static str,
    pub unit: &'static str,
}

/// What a field holds; numbers are little-endian.
#[derive(Clone, Copy, Debug, PartialEq, Eq)]
pub enum Type {
    /// Three of them.
    Letters,
    /// One, or 0 for none.
    Letter,
    U8,
    U16,
    U32,
    I16,
}

/// What the values of a certificate of this kind are.
#[derive(Clone, Copy, Debug, PartialEq, Eq)]
pub struct Instrument {
    pub kind: i64,
    pub name: &'static str,
    pub values: [Field; 3],
}

#[rustfmt::skip]
pub const HEADER: Record = Record {
    length: 9,
    fields: &[
        row(0, Letters, "mark",                   "SRJ",     ""),
        row(3, U16,     "version",                "1 or 2",  ""),
        row(5, U16,     "number of certificates", "0 to 64", ""),
        row(7, U16,     "number of runs",         "1 to 16", ""),
    ],
};

#[rustfmt::skip]
pub const CERTIFICATE: Record = Record {
    length: 16,
    fields: &[
        row( 0, U8,      "kind",         "1 to 3",               ""),
        row( 1, Letters, "maker",        "A to Z each",          ""),
        row( 4, U32,     "serial",       "1 or more",            ""),
        row( 8, Letter,  "letter",       "0 for none or A to Z", ""),
        row( 8, U16,     "day",          "",                     ""),
        row(10, U16,     "first value",  BY_THE_KIND,            ""),
        row(12, U16,     "second value", BY_THE_KIND,            ""),
        row(14, U16,     "third value",  BY_THE_KIND,            ""),
    ],
};

const BY_THE_KIND: &str = "by the kind";

#[rustfmt::skip]
pub const INSTRUMENTS: &[Instrument] = &[
    Instrument {
        kind: 1,
        name: "meter",
        values: [
            row(10, U16, "factor Y",     "9,000 to 11,000", "1/10,000"),
            row(12, U16, "second value", "0",               ""),
            row(14, U16, "third value",  "0",               ""),
        ],
    },
    Instrument {
        kind: 2,
        name: "pitot tube",
        values: [
            row(10, U16, "coefficient Cp", "500 to 1,000", "1/1,000"),
            row(12, U16, "second value",   "0",            ""),
            row(14, U16, "third value",    "0",            ""),
        ],
    },
    Instrument {
        kind: 3,
        name: "nozzle",
        values: [
            row(10, U16, "first diameter",  "100 to 1,000", "0.001 in"),
            row(12, U16, "second diameter", "100 to 1,000", "0.001 in"),
            row(14, U16, "third diameter",  "100 to 1,000", "0.001 in"),
        ],
    },
];

#[rustfmt::skip]
pub const RUN: Record = Record {
    length: 64,
    fields: &[
        row( 0, U16,     "run number",                                "1 to 999",                       ""),
        row( 2, U16,     "day",                                       "",                               ""),
        row( 4, Letters, "meter's maker",                             "A to Z each",                    ""),
        row( 7, U32,     "meter's serial",                            "1 or more",                      ""),
        row(11, Letter,  "meter's letter",                            "0 for none or A to Z",           ""),
        row(11, Letters, "pitot tube's maker",                        "A to Z each",                    ""),
        row(14, U32,     "pitot tube's serial",                       "1 or more",                      ""),
        row(18, Letter,  "pitot tube's letter",                       "0 for none or A to Z",           ""),
        row(18, Letters, "nozzle's maker",                            "A to Z each",                    ""),
        row(21, U32,     "nozzle's serial",                           "1 or more",                      ""),
        row(25, Letter,  "nozzle's letter",                           "0 for none or A to Z",           ""),
        row(25, U16,     "barometer Pb",                              "2,000 to 3,200",                 "0.01 in Hg"),
        row(27, I16,     "stack static pressure Pg",                  "-3,000 to 3,000",                "0.01 in water"),
        row(29, U16,     "carbon dioxide CO2",                        "0 to 1,000",                     "0.1 percent"),
        row(31, U16,     "oxygen O2",                                 "0 to (1,000 - CO2)",             "0.1 percent"),
        row(33, U32,     "first meter reading",                       "0 to 999,999,999",               "0.001 ft3"),
        row(37, U32,     "last meter reading",                        "the first to 999,999 above it",  "0.001 ft3"),
        row(41, U16,     "water",                                     "0 to 20,000",                    "0.1 ml"),
        row(43, U8,      "shape",                                     "1 round, 2 rectangular",         ""),
        row(44, U16,     "first side, of a round stack its diameter", "1 to 9,999",                     "0.1 in"),
        row(46, U16,     "second side",                               "1 to 9,999, of a round stack 0", "0.1 in"),
        row(48, U16,     "distance to the next disturbance",          "",                               "0.1 in"),
        row(50, U16,     "distance from the last disturbance",        "",                               "0.1 in"),
        row(52, U16,     "acetone blank's residue",                   "",                               "0.1 mg"),
        row(54, U16,     "acetone blank's volume",                    "1 to 500",                       "ml"),
        row(56, U16,     "rinse volume",                              "0 to 1,000",                     "ml"),
        row(58, U16,     "acetone density",                           "5,000 to 9,999",                 "0.1 mg/ml"),
        row(60, U8,      "number of points",                          "1 to 64",                        ""),
        row(61, U8,      "number of segments",                        "1 to 16",                        ""),
        row(62, U8,      "number of weighings",                       "0 to 8",                         ""),
        row(63, U8,      "spare byte",                                "0",                              ""),
    ],
};

#[rustfmt::skip]
pub const POINT: Record = Record {
    length: 12,
    fields: &[
        row( 0, U16, "seconds",                  "1 to 36,000",    "s"),
        row( 2, U16, "velocity head",            "0 to 10,000",    "0.001 in water"),
        row( 4, U16, "orifice head",             "0 to 2,000",     "0.01 in water"),
        row( 6, I16, "stack temperature",        "-400 to 20,000", "0.1 F"),
        row( 8, I16, "meter inlet temperature",  "0 to 1,500",     "0.1 F"),
        row(10, I16, "meter outlet temperature", "0 to 1,500",     "0.1 F"),
    ],
};

#[rustfmt::skip]
pub const SEGMENT: Record = Record {
    length: 4,
    fields: &[
        row(0, U16, "seconds",   "1 to 36,000", "s"),
        row(2, U16, "leak rate", "0 to 1,000",  "0.001 cfm"),
    ],
};

#[rustfmt::skip]
pub const WEIGHING: Record = Record {
    length: 14,
    fields: &[
        row( 0, U8,  "kind",                "1 filter, 2 rinse", ""),
        row( 1, U8,  "spare byte",          "0",                 ""),
        row( 2, U32, "tare",                "0 to 4,000,000",    "0.1 mg"),
        row( 6, U32, "first final weight",  "0 to 4,000,000",    "0.1 mg"),
        row(10, U32, "second final weight", "0 to 4,000,000",    "0.1 mg"),
    ],
};

/// The records of a figure, the same in every version of a job file: its header, what
/// stands before each of its two lists of steps, and a step.
#[rustfmt::skip]
pub const FIGURE_HEADER: Record = Record {
    length: 5,
    fields: &[
        row(0, Letters, "mark",    "FIG", ""),
        row(3, U16,     "version", "1",   ""),
    ],
};

#[rustfmt::skip]
pub const STEPS: Record = Record {
    length: 1,
    fields: &[
        row(0, U8, "number of steps", "1 to 16", ""),
    ],
};

#[rustfmt::skip]
pub const STEP: Record = Record {
    length: 4,
    fields: &[
        row(0, U16, "least distance",                 "",        "0.01 diameter"),
        row(2, U8,  "points for a round stack",       "1 to 48", ""),
        row(3, U8,  "points for a rectangular stack", "1 to 49", ""),
    ],
};

const fn row(
    at: usize,
    holds: Type,
    name: &'static str,
    range: &'static str,
    unit: &'static str,
) -> Field {
    Field {
        at,
        holds,
        name,
        range,
        unit,
    }
}

impl Record {
    /// The field of that name.
    pub fn field(&self, name: &str) -> Option<&'static Field> {
        self.fields.iter().find(|field| field.name == name)
    }
}

impl Field {
    /// The number of the refusal where it is out of its range.
    pub fn refusal(&self) -> u32 {
        match self.name {
            "mark" => 2,
            "version" => 3,
            name if name.starts_with("number of ") => 4,
            _ => 5,
        }
    }

    /// Whether its name speaks of several: seconds, and the points of a step.
    pub(super) fn is_plural(&self) -> bool {
        self.name == "seconds" || self.name.starts_with("points ")
    }

    /// Whether its range depends on the certificate's kind.
    pub(super) fn is_by_the_kind(&self) -> bool {
        self.range == BY_THE_KIND
    }
}

impl Type {
    /// How many bytes it takes.
    pub fn length(self) -> usize {
        match self {
            Type::U8 | Type::Letter => 1,
            Type::U16 | Type::I16 => 2,
            Type::Letters => 3,
            Type::U32 => 4,
        }
    }

    /// Its name in the tables.
    pub fn name(self) -> &'static str {
        match self {
            Type::Letters => "3 letters",
            Type::Letter => "1 letter",
            Type::U8 => "u8",
            Type::U16 => "u16",
            Type::U32 => "u32",
            Type::I16 => "i16",
        }
    }

    /// The number in that many bytes; three letters are none.
    pub fn number(self, bytes: &[u8]) -> Option<i64> {
        match (self, bytes) {
            (Type::U8 | Type::Letter, &[a]) => Some(a.into()),
            (Type::U16, &[a, b]) => Some(u16::from_le_bytes([a, b]).into()),
            (Type::I16, &[a, b]) => Some(i16::from_le_bytes([a, b]).into()),
            (Type::U32, &[a, b, c, d]) => Some(u32::from_le_bytes([a, b, c, d]).into()),
            _ => None,
        }
    }
}
