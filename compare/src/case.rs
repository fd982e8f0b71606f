//! A named job to compare on, kept as values and changes so that it can shrink.

use independent::job::Job;

pub struct Case {
    pub name: String,
    pub subject: Subject,
    pub expected: Expected,
}

/// A case to be worked by a figure. What is expected of it goes for both files.
pub struct ByFigure {
    pub figure: Vec<u8>,
    pub case: Case,
}

/// A case whose findings are to be explained, by a figure where there is one. What is
/// expected of it goes for both files.
pub struct ToExplain {
    pub figure: Option<Vec<u8>>,
    pub case: Case,
}

/// A job made from values, then changed byte by byte.
#[derive(Clone)]
pub struct Subject {
    pub job: Job,
    pub changes: Vec<Change>,
}

#[derive(Clone)]
pub enum Change {
    /// Does nothing past the end.
    Set {
        at: usize,
        value: u8,
    },
    Cut {
        length: usize,
    },
    Append(Vec<u8>),
}

/// What the case was made to be; both sides agreeing on anything else means
/// that the case, or both sides, are wrong.
#[derive(Clone, Copy, Debug, PartialEq, Eq)]
pub enum Expected {
    Read,
    Refused(u32),
    Either,
}

impl Case {
    pub fn of_job(name: String, job: Job, expected: Expected) -> Self {
        Case::changed(name, job, vec![], expected)
    }

    pub fn changed(name: String, job: Job, changes: Vec<Change>, expected: Expected) -> Self {
        Case {
            name: format!("version {}, {name}", job.version as u16),
            subject: Subject { job, changes },
            expected,
        }
    }
}

impl ByFigure {
    pub fn of_job(name: String, figure: Vec<u8>, job: Job, expected: Expected) -> Self {
        ByFigure {
            figure,
            case: Case::of_job(name, job, expected),
        }
    }
}

impl From<Case> for ToExplain {
    fn from(case: Case) -> Self {
        let figure = None;
        ToExplain { figure, case }
    }
}

impl From<ByFigure> for ToExplain {
    fn from(ByFigure { figure, case }: ByFigure) -> Self {
        let figure = Some(figure);
        ToExplain { figure, case }
    }
}

impl Subject {
    pub fn bytes(&self) -> Vec<u8> {
        Change::all_applied(&self.changes, self.job.bytes())
    }
}

impl Change {
    pub fn all_applied(changes: &[Change], mut bytes: Vec<u8>) -> Vec<u8> {
        for change in changes {
            change.apply(&mut bytes);
        }
        bytes
    }

    fn apply(&self, bytes: &mut Vec<u8>) {
        match self {
            Change::Set { at, value } => {
                if let Some(byte) = bytes.get_mut(*at) {
                    *byte = *value;
                }
            }
            Change::Cut { length } => bytes.truncate(*length),
            Change::Append(more) => bytes.extend(more),
        }
    }
}

impl Expected {
    /// Whether the number of a refusal (0 for success) is as expected.
    pub fn admits(self, refusal: u32) -> bool {
        match self {
            Expected::Read => refusal == 0,
            Expected::Refused(number) => refusal == number,
            Expected::Either => true,
        }
    }
}
