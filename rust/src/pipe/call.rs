//! A call: its numbers, and the lengths of the outputs that are lent to it.

use crate::outputs::{ACCEPTED, FINDING_LENGTH, LINES_LENGTH};

#[derive(Clone, Copy, Debug, PartialEq, Eq)]
pub enum Call {
    Reduce {
        run: u16,
        lines_len: usize,
        findings_len: usize,
    },
    ReduceByFigure {
        run: u16,
        lines_len: usize,
        findings_len: usize,
    },
    RunCount,
    RunNumber {
        index: u16,
    },
    RoundLayout {
        points: u16,
        diameter: u16,
        nozzle: u16,
        out_len: usize,
    },
    RectLayout {
        points: u16,
        first: u16,
        second: u16,
        out_len: usize,
    },
    SheetText {
        out_len: usize,
    },
    SheetTextByFigure {
        out_len: usize,
    },
    Explain {
        run: u16,
        rule: u16,
        place: u16,
        out_len: usize,
    },
    ExplainByFigure {
        run: u16,
        rule: u16,
        place: u16,
        out_len: usize,
    },
    ExplainText {
        run: u16,
        rule: u16,
        place: u16,
        out_len: usize,
    },
    ExplainTextByFigure {
        run: u16,
        rule: u16,
        place: u16,
        out_len: usize,
    },
}

impl Call {
    /// The length of each output that is lent.
    pub fn output_lengths(self) -> Vec<usize> {
        match self {
            Call::RunCount | Call::RunNumber { .. } => vec![],
            Call::Reduce {
                lines_len,
                findings_len,
                ..
            }
            | Call::ReduceByFigure {
                lines_len,
                findings_len,
                ..
            } => vec![lines_len, findings_len],
            Call::RoundLayout { out_len, .. }
            | Call::RectLayout { out_len, .. }
            | Call::SheetText { out_len }
            | Call::SheetTextByFigure { out_len }
            | Call::Explain { out_len, .. }
            | Call::ExplainByFigure { out_len, .. }
            | Call::ExplainText { out_len, .. }
            | Call::ExplainTextByFigure { out_len, .. } => vec![out_len],
        }
    }

    /// How many bytes of either output a call with that answer wrote: none if it
    /// was refused.
    pub(super) fn written(self, answer: u64) -> [usize; 2] {
        let (refusal, value) = (answer >> 32, answer as u32);
        match self {
            _ if refusal != 0 => [0, 0],
            Call::RunCount | Call::RunNumber { .. } => [0, 0],
            Call::Reduce { .. } | Call::ReduceByFigure { .. } => {
                [LINES_LENGTH, (value % ACCEPTED) as usize * FINDING_LENGTH]
            }
            Call::RoundLayout { .. }
            | Call::RectLayout { .. }
            | Call::SheetText { .. }
            | Call::SheetTextByFigure { .. }
            | Call::Explain { .. }
            | Call::ExplainByFigure { .. }
            | Call::ExplainText { .. }
            | Call::ExplainTextByFigure { .. } => [value as usize, 0],
        }
    }
}
