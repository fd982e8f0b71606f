//! The names and sentences of the package, each said once: what the lines are
//! called and their units, what each rule says and what its place counts, what a
//! finding of a class says besides, and why each refusal is given. A number may be
//! left out of a table, and what looks it up answers `None`.
//!
//! ```
//! use leverbonnet::texts;
//!
//! let line = texts::line(18).unwrap();
//! assert_eq!((line.name, line.unit), ("Percent isokinetic", "%"));
//! assert_eq!(texts::rule(11).unwrap().place, "segment");
//! assert!(texts::refusal(12).is_none());
//! ```

use crate::finding::Class;

/// What a line is called. Its whole number, with so many decimals, is its value
/// in the unit.
#[derive(Clone, Copy, Debug, PartialEq, Eq)]
pub struct LineText {
    pub number: u8,
    pub name: &'static str,
    pub decimals: usize,
    pub unit: &'static str,
}

/// What a run that breaks the rule is told, as a clause, and what the place of
/// the finding counts: nothing where the rule is about the whole run.
#[derive(Clone, Copy, Debug, PartialEq, Eq)]
pub struct RuleText {
    pub number: u8,
    pub clause: &'static str,
    pub place: &'static str,
}

/// What a finding of the rule says besides where it is of that class, as a clause.
#[derive(Clone, Copy, Debug, PartialEq, Eq)]
pub struct ClassText {
    pub rule: u8,
    pub class: Class,
    pub clause: &'static str,
}

/// Why a refusal is given, as a clause.
#[derive(Clone, Copy, Debug, PartialEq, Eq)]
pub struct RefusalText {
    pub number: u32,
    pub clause: &'static str,
}

pub fn line(number: u8) -> Option<&'static LineText> {
    LINES.iter().find(|line| line.number == number)
}

pub fn rule(number: u8) -> Option<&'static RuleText> {
    RULES.iter().find(|rule| rule.number == number)
}

pub fn class(rule: u8, class: Class) -> Option<&'static ClassText> {
    let mut texts = CLASSES.iter();
    texts.find(|text| (text.rule, text.class) == (rule, class))
}

pub fn refusal(number: u32) -> Option<&'static RefusalText> {
    REFUSALS.iter().find(|refusal| refusal.number == number)
}

#[rustfmt::skip]
pub const LINES: &[LineText] = &[
    a_line( 1, "Time",                 0, "s"),
    a_line( 2, "Metered volume",       3, "ft3"),
    a_line( 3, "Corrected volume",     3, "ft3"),
    a_line( 4, "Meter pressure",       4, "in Hg"),
    a_line( 5, "Meter temperature",    1, "R"),
    a_line( 6, "Dry standard volume",  3, "ft3"),
    a_line( 7, "Water vapor",          3, "ft3"),
    a_line( 8, "Moisture",             3, "%"),
    a_line( 9, "Dry molecular weight", 3, "lb/lb-mole"),
    a_line(10, "Wet molecular weight", 3, "lb/lb-mole"),
    a_line(11, "Stack pressure",       4, "in Hg"),
    a_line(12, "Stack temperature",    1, "R"),
    a_line(13, "Mean root",            5, "(in water)^0.5"),
    a_line(14, "Density root",         4, "(R lb-mole/in Hg lb)^0.5"),
    a_line(15, "Velocity",             3, "ft/s"),
    a_line(16, "Nozzle area",          8, "ft2"),
    a_line(17, "Drawn gas",            3, "% ft3 min/s"),
    a_line(18, "Percent isokinetic",   2, "%"),
    a_line(19, "Catch",                1, "mg"),
    a_line(20, "Concentration",        5, "gr/dscf"),
];

#[rustfmt::skip]
pub const RULES: &[RuleText] = &[
    a_rule( 1, "", "the meter has no certificate of the run's day or earlier with the same maker, serial and letter"),
    a_rule( 2, "", "the pitot tube has no certificate of the run's day or earlier with the same maker, serial and letter"),
    a_rule( 3, "", "the nozzle has no certificate of the run's day or earlier with the same maker, serial and letter"),
    a_rule( 4, "", "the meter has no certificate later than the run's day with the same maker, serial and letter"),
    a_rule( 5, "", "the meter's factor moved by more than 5 percent"),
    a_rule( 6, "", "the nozzle's highest and lowest diameters differ by more than 0.004 in"),
    a_rule( 7, "", "the stack's diameter is below 12 in"),
    a_rule( 8, "", "the next disturbance is nearer than half a diameter, or the last one nearer than two"),
    a_rule( 9, "", "there are too few points, or a number of points that is not allowed"),
    a_rule(10, "point", "the point was sampled for less than 120 seconds"),
    a_rule(11, "segment", "the leak rate is above the allowance"),
    a_rule(12, "", "the corrected volume, line 3, is 0"),
    a_rule(14, "", "the velocity, line 15, is 0"),
    a_rule(15, "", "the percent isokinetic, line 18 before it is rounded, is below 90 percent"),
    a_rule(16, "", "the percent isokinetic, line 18 before it is rounded, is above 110 percent"),
    a_rule(17, "weighing", "the two final weights differ by more than 0.5 mg and more than 1 percent of the net weight"),
    a_rule(18, "", "no filter was weighed"),
    a_rule(19, "", "no rinse was weighed"),
    a_rule(20, "", "the catch, line 19, is negative"),
];

/// Rule 5 is a note in a job of version 1 and a fault in one of version 2, and Y
/// goes by the version too.
pub const CLASSES: &[ClassText] = &[
    a_class(5, Class::Note, "Y is the lower of the two"),
    a_class(5, Class::Fault, "Y is the earlier of the two"),
];

#[rustfmt::skip]
pub const REFUSALS: &[RefusalText] = &[
    a_refusal( 1, "the file ends before its header or a record is complete"),
    a_refusal( 2, "the mark is not SRJ"),
    a_refusal( 3, "the version is neither 1 nor 2"),
    a_refusal( 4, "a count is out of its range"),
    a_refusal( 5, "a field is out of its range"),
    a_refusal( 6, "a certificate repeats an earlier one, or a run's number is not above that of the run before"),
    a_refusal( 7, "the points last over 36,000 seconds, or points and segments do not last the same time"),
    a_refusal( 8, "bytes are left over behind the last run"),
    a_refusal( 9, "a lent output is too short"),
    a_refusal(10, "the job has no run of that number"),
    a_refusal(11, "the layout is outside its ranges"),
    a_refusal(14, "the figure ends early, has a field out of range or order, or has bytes left over"),
    a_refusal(15, "the run does not have that finding"),
];

/// Said where a number stands in no table; no proved call gives such a one.
pub(crate) const NO_LINE: &str = "no such line";
pub(crate) const NO_RULE: &str = "no rule has that number";
pub(crate) const NO_REFUSAL: &str = "no refusal has that number";

const fn a_line(number: u8, name: &'static str, decimals: usize, unit: &'static str) -> LineText {
    LineText {
        number,
        name,
        decimals,
        unit,
    }
}

const fn a_rule(number: u8, place: &'static str, clause: &'static str) -> RuleText {
    RuleText {
        number,
        clause,
        place,
    }
}

const fn a_class(rule: u8, class: Class, clause: &'static str) -> ClassText {
    ClassText {
        rule,
        class,
        clause,
    }
}

const fn a_refusal(number: u32, clause: &'static str) -> RefusalText {
    RefusalText { number, clause }
}
