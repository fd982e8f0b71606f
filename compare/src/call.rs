//! One call, the bytes lent to it, and what came back.

use std::fmt;

use leverbonnet::pipe::{Call, Files, Reply, Request};

/// What a reduced run's outputs take.
pub const LINE_COUNT: usize = 20;
pub const LINE_LENGTH: usize = 9;
pub const LINES_LENGTH: usize = LINE_COUNT * LINE_LENGTH;
pub const FINDING_LENGTH: usize = 4;

/// More than any explanation takes, and more than any that there is takes as text.
pub const ROOMY_EXPLANATION: usize = 70 + 11;
pub const ROOMY_EXPLANATION_TEXT: usize = 600;

/// Added to the number of findings of an accepted run.
const ACCEPTED: u32 = 65_536;

/// Bytes kept around each output lent within this program; no side may change
/// them.
const GUARD: usize = 32;

/// The twelve calls of a side that is part of this program.
pub struct Side {
    pub reduce: fn(&[u8], u16, &mut [u8], &mut [u8]) -> u64,
    pub reduce_by_figure: ReduceByFigure,
    pub run_count: fn(&[u8]) -> u64,
    pub run_number: fn(&[u8], u16) -> u64,
    pub round_layout: fn(u16, u16, u16, &mut [u8]) -> u64,
    pub rect_layout: fn(u16, u16, u16, &mut [u8]) -> u64,
    pub sheet_text: fn(&[u8], &mut [u8]) -> u64,
    pub sheet_text_by_figure: fn(&[u8], &[u8], &mut [u8]) -> u64,
    pub explain: Explain,
    pub explain_by_figure: ExplainByFigure,
    pub explain_text: Explain,
    pub explain_text_by_figure: ExplainByFigure,
}

pub type ReduceByFigure = fn(&[u8], &[u8], u16, &mut [u8], &mut [u8]) -> u64;
/// With the run's number, the rule and the place.
pub type Explain = fn(&[u8], u16, u16, u16, &mut [u8]) -> u64;
pub type ExplainByFigure = fn(&[u8], &[u8], u16, u16, u16, &mut [u8]) -> u64;

/// A finding that an explanation is asked for, whether the run has it or not.
#[derive(Clone, Copy, Debug, PartialEq, Eq)]
pub struct Asked {
    pub run: u16,
    pub rule: u16,
    pub place: u16,
}

/// A job without a figure.
pub fn only(job: &[u8]) -> Files<'_> {
    Files { figure: &[], job }
}

/// The calls that there are without a figure and by one.
#[derive(Clone, Copy)]
pub struct Calls {
    /// By the run's number and the lengths of lines and findings.
    pub reduce: fn(u16, usize, usize) -> Call,
    /// By the output's length.
    pub text: fn(usize) -> Call,
    /// By the output's length too.
    pub explain: fn(Asked, usize) -> Call,
    pub explain_text: fn(Asked, usize) -> Call,
}

pub const WITHOUT_FIGURE: Calls = Calls {
    reduce: |run, lines_len, findings_len| Call::Reduce {
        run,
        lines_len,
        findings_len,
    },
    text: |out_len| Call::SheetText { out_len },
    explain: |Asked { run, rule, place }, out_len| Call::Explain {
        run,
        rule,
        place,
        out_len,
    },
    explain_text: |Asked { run, rule, place }, out_len| Call::ExplainText {
        run,
        rule,
        place,
        out_len,
    },
};

pub const BY_FIGURE: Calls = Calls {
    reduce: |run, lines_len, findings_len| Call::ReduceByFigure {
        run,
        lines_len,
        findings_len,
    },
    text: |out_len| Call::SheetTextByFigure { out_len },
    explain: |Asked { run, rule, place }, out_len| Call::ExplainByFigure {
        run,
        rule,
        place,
        out_len,
    },
    explain_text: |Asked { run, rule, place }, out_len| Call::ExplainTextByFigure {
        run,
        rule,
        place,
        out_len,
    },
};

/// An answer, and every lent buffer with its guards as the call left it.
#[derive(Clone, Debug, PartialEq, Eq)]
pub struct Outcome {
    pub answer: u64,
    lent: Vec<Lent>,
}

impl Outcome {
    /// 0 for success.
    pub fn refusal(&self) -> u32 {
        (self.answer >> 32) as u32
    }

    /// What succeeded, or the refusal's place.
    pub fn value(&self) -> u32 {
        self.answer as u32
    }

    /// How many findings a successful reduce wrote.
    pub fn findings(&self) -> usize {
        (self.value() % ACCEPTED) as usize
    }

    /// Whether a successful reduce accepted the run.
    pub fn accepted(&self) -> bool {
        self.value() >= ACCEPTED
    }

    /// The lent bytes of the call's output of that index, without guards.
    pub fn output(&self, index: usize) -> &[u8] {
        let lent = &self.lent[index];
        &lent.bytes[lent.guard..lent.guard + lent.length]
    }
}

#[derive(Clone, Debug, PartialEq, Eq)]
struct Lent {
    bytes: Vec<u8>,
    guard: usize,
    length: usize,
}

impl Lent {
    fn new(length: usize, fill: Fill) -> Self {
        let guard = fill.guard();
        let bytes = (0..length + 2 * guard).map(|at| fill.byte(at)).collect();
        Lent {
            bytes,
            guard,
            length,
        }
    }

    fn middle(&mut self) -> &mut [u8] {
        &mut self.bytes[self.guard..self.guard + self.length]
    }
}

/// What lent bytes hold before a call. A byte written with the value it already
/// had shows under another fill.
#[derive(Clone, Copy, Debug)]
pub enum Fill {
    /// Unlike from place to place, so that a byte moved shows too.
    Pattern,
    Complement,
    /// The same everywhere and without guards, for a call made elsewhere.
    Even(u8),
}

impl Fill {
    pub fn byte(self, at: usize) -> u8 {
        let pattern = (at as u8).wrapping_mul(151).wrapping_add(17);
        match self {
            Fill::Pattern => pattern,
            Fill::Complement => !pattern,
            Fill::Even(byte) => byte,
        }
    }

    fn guard(self) -> usize {
        match self {
            Fill::Pattern | Fill::Complement => GUARD,
            Fill::Even(_) => 0,
        }
    }
}

/// A call, and what its outputs hold before it.
#[derive(Clone, Copy, Debug)]
pub struct Trial {
    pub call: Call,
    pub fill: Fill,
}

impl Trial {
    /// Makes the call on a side.
    pub fn made(&self, side: &Side, files: Files) -> Outcome {
        let Files { figure, job } = files;
        let mut lent = self.lent();
        let answer = match (self.call, &mut lent[..]) {
            (Call::RunCount, []) => (side.run_count)(job),
            (Call::RunNumber { index }, []) => (side.run_number)(job, index),
            (Call::Reduce { run, .. }, [lines, findings]) => {
                (side.reduce)(job, run, lines.middle(), findings.middle())
            }
            (Call::ReduceByFigure { run, .. }, [lines, findings]) => {
                (side.reduce_by_figure)(figure, job, run, lines.middle(), findings.middle())
            }
            (
                Call::RoundLayout {
                    points,
                    diameter,
                    nozzle,
                    ..
                },
                [out],
            ) => (side.round_layout)(points, diameter, nozzle, out.middle()),
            (
                Call::RectLayout {
                    points,
                    first,
                    second,
                    ..
                },
                [out],
            ) => (side.rect_layout)(points, first, second, out.middle()),
            (Call::SheetText { .. }, [out]) => (side.sheet_text)(job, out.middle()),
            (Call::SheetTextByFigure { .. }, [out]) => {
                (side.sheet_text_by_figure)(figure, job, out.middle())
            }
            (
                Call::Explain {
                    run, rule, place, ..
                },
                [out],
            ) => (side.explain)(job, run, rule, place, out.middle()),
            (
                Call::ExplainByFigure {
                    run, rule, place, ..
                },
                [out],
            ) => (side.explain_by_figure)(figure, job, run, rule, place, out.middle()),
            (
                Call::ExplainText {
                    run, rule, place, ..
                },
                [out],
            ) => (side.explain_text)(job, run, rule, place, out.middle()),
            (
                Call::ExplainTextByFigure {
                    run, rule, place, ..
                },
                [out],
            ) => (side.explain_text_by_figure)(figure, job, run, rule, place, out.middle()),
            _ => unreachable!("each call is lent its own outputs"),
        };
        Outcome { answer, lent }
    }

    /// The call to be made elsewhere.
    pub fn request(&self) -> Request {
        Request {
            call: self.call,
            fill: self.fill.byte(0),
        }
    }

    /// What the call made elsewhere came to.
    pub fn told(&self, reply: Reply) -> Outcome {
        let mut lent = self.lent();
        for (output, bytes) in lent.iter_mut().zip(&reply.outputs) {
            output.middle().copy_from_slice(bytes);
        }
        Outcome {
            answer: reply.answer,
            lent,
        }
    }

    fn lent(&self) -> Vec<Lent> {
        let lengths = self.call.output_lengths().into_iter();
        lengths.map(|length| Lent::new(length, self.fill)).collect()
    }
}

impl fmt::Display for Trial {
    fn fmt(&self, f: &mut fmt::Formatter) -> fmt::Result {
        let Trial { call, fill } = self;
        write!(f, "{call:?}, outputs filled with {fill:?}")
    }
}

impl fmt::Display for Outcome {
    fn fmt(&self, f: &mut fmt::Formatter) -> fmt::Result {
        match self.refusal() {
            0 => write!(f, "success with {}", self.value())?,
            number => write!(f, "refusal {number} at {}", self.value())?,
        }
        for lent in &self.lent {
            let (before, rest) = lent.bytes.split_at(lent.guard);
            let (output, after) = rest.split_at(lent.length);
            if lent.guard > 0 {
                write!(f, "\n  bytes before the output {}", hex(before))?;
            }
            write!(f, "\n  output                  {}", hex(output))?;
            if lent.guard > 0 {
                write!(f, "\n  bytes after the output  {}", hex(after))?;
            }
        }
        Ok(())
    }
}

pub fn hex(bytes: &[u8]) -> String {
    bytes.iter().map(|byte| format!("{byte:02x}")).collect()
}
