//! A call as bytes, all numbers little-endian. A request is a header of 18 bytes,
//! then the figure's and then the job's:
//!
//! ```text
//! 0   u8    1 reduce, 2 run count, 3 run number, 4 round layout,
//!           5 rectangular layout, 6 sheet text, 7 reduce by figure,
//!           8 sheet text by figure, 9 explain, 10 explain by figure,
//!           11 explain text, 12 explain text by figure
//! 1   u8    what every byte of the outputs holds before the call
//! 2   u16   the run; the index; the points
//! 4   u16   the diameter; the first side; the rule
//! 6   u16   the nozzle; the second side; the place
//! 8   u16   the length of the lines, or of the only output
//! 10  u16   the length of the findings, at most 4,096
//! 12  u32   the length of the job, at most 65,536
//! 16  u16   the length of the figure, at most 4,096
//! ```
//!
//! The reply to it is the answer as a u64 and then the outputs, each at its whole
//! length.

use super::call::Call;

const ANSWER_LENGTH: usize = 8;

/// The longest outputs that a request can ask for. No call writes that much, so
/// a longer one that is lent gets the same answer and the same bytes.
const MOST_OUTPUT: [usize; 2] = [65_535, 4_096];

/// The longest job that is sent. Nothing past the first 17,274 bytes of a job
/// changes an answer (theorem `prefix`), so a longer one is cut.
const MOST_JOB: usize = 65_536;

/// The longest figure that is sent. A figure has at most 135 bytes and is refused
/// at the first byte too many, so a longer one is cut.
const MOST_FIGURE: usize = 4_096;

/// The files that a call is made on. One that takes no figure looks at none, and
/// a layout at no job either.
#[derive(Clone, Copy, Debug, PartialEq, Eq)]
pub struct Files<'a> {
    pub figure: &'a [u8],
    pub job: &'a [u8],
}

/// A call, and what every byte of its outputs holds before it.
#[derive(Clone, Copy, Debug, PartialEq, Eq)]
pub struct Request {
    pub call: Call,
    pub fill: u8,
}

/// What came back for a request: the library's own word, and both outputs as the
/// call left them (empty where none is lent).
#[derive(Clone, Debug, PartialEq, Eq)]
pub struct Reply {
    pub answer: u64,
    pub outputs: [Vec<u8>; 2],
}

impl Request {
    pub(super) fn append_to(self, bytes: &mut Vec<u8>, files: Files) {
        let (number, arguments) = match self.call {
            Call::Reduce { run, .. } => (1, [run, 0, 0]),
            Call::RunCount => (2, [0; 3]),
            Call::RunNumber { index } => (3, [index, 0, 0]),
            Call::RoundLayout {
                points,
                diameter,
                nozzle,
                ..
            } => (4, [points, diameter, nozzle]),
            Call::RectLayout {
                points,
                first,
                second,
                ..
            } => (5, [points, first, second]),
            Call::SheetText { .. } => (6, [0; 3]),
            Call::ReduceByFigure { run, .. } => (7, [run, 0, 0]),
            Call::SheetTextByFigure { .. } => (8, [0; 3]),
            Call::Explain {
                run, rule, place, ..
            } => (9, [run, rule, place]),
            Call::ExplainByFigure {
                run, rule, place, ..
            } => (10, [run, rule, place]),
            Call::ExplainText {
                run, rule, place, ..
            } => (11, [run, rule, place]),
            Call::ExplainTextByFigure {
                run, rule, place, ..
            } => (12, [run, rule, place]),
        };
        let lengths = self.sent_lengths().map(|length| length as u16);
        let figure = cut(files.figure, MOST_FIGURE);
        let job = cut(files.job, MOST_JOB);
        bytes.extend([number, self.fill]);
        for word in arguments.into_iter().chain(lengths) {
            bytes.extend(word.to_le_bytes());
        }
        bytes.extend((job.len() as u32).to_le_bytes());
        bytes.extend((figure.len() as u16).to_le_bytes());
        bytes.extend(figure);
        bytes.extend(job);
    }

    pub(super) fn reply_length(self) -> usize {
        ANSWER_LENGTH + self.sent_lengths().iter().sum::<usize>()
    }

    /// From as many bytes as its reply has.
    pub(super) fn reply(self, bytes: &[u8]) -> Reply {
        let (answer, outputs) = bytes.split_at(ANSWER_LENGTH);
        let (first, second) = outputs.split_at(self.sent_lengths()[0]);
        Reply {
            answer: u64::from_le_bytes(answer.try_into().expect("an answer is a u64")),
            outputs: [first.to_vec(), second.to_vec()],
        }
    }

    fn sent_lengths(self) -> [usize; 2] {
        let lent = self.call.output_lengths();
        std::array::from_fn(|k| lent.get(k).map_or(0, |&length| length.min(MOST_OUTPUT[k])))
    }
}

fn cut(file: &[u8], most: usize) -> &[u8] {
    &file[..file.len().min(most)]
}

#[cfg(test)]
mod tests {
    use super::*;

    const NO_FILES: Files = Files {
        figure: &[],
        job: &[],
    };

    const JOB_ALONE: Files = Files {
        figure: &[],
        job: b"SRJ",
    };

    const BOTH: Files = Files {
        figure: b"FIG\x01",
        job: b"SRJ",
    };

    fn bytes_of(call: Call, fill: u8, files: Files) -> Vec<u8> {
        let mut bytes = vec![];
        Request { call, fill }.append_to(&mut bytes, files);
        bytes
    }

    fn reply_length_of(call: Call) -> usize {
        Request { call, fill: 0 }.reply_length()
    }

    #[test]
    fn a_reduce_as_bytes() {
        let call = Call::Reduce {
            run: 0x0201,
            lines_len: 180,
            findings_len: 420,
        };
        let header = [1, 0x5A, 1, 2, 0, 0, 0, 0, 180, 0, 0xA4, 1, 3, 0, 0, 0, 0, 0];
        let bytes = bytes_of(call, 0x5A, JOB_ALONE);
        assert_eq!(bytes, [&header[..], b"SRJ"].concat());
        assert_eq!(reply_length_of(call), 8 + 180 + 420);
    }

    #[test]
    fn a_reduce_by_figure_as_bytes() {
        let call = Call::ReduceByFigure {
            run: 0x0201,
            lines_len: 180,
            findings_len: 420,
        };
        let header = [7, 0x5A, 1, 2, 0, 0, 0, 0, 180, 0, 0xA4, 1, 3, 0, 0, 0, 4, 0];
        let bytes = bytes_of(call, 0x5A, BOTH);
        assert_eq!(bytes, [&header[..], b"FIG\x01SRJ"].concat());
        assert_eq!(reply_length_of(call), 8 + 180 + 420);
    }

    #[test]
    fn a_layout_as_bytes() {
        let call = Call::RectLayout {
            points: 9,
            first: 300,
            second: 400,
            out_len: 72,
        };
        let bytes = [5, 0, 9, 0, 44, 1, 144, 1, 72, 0, 0, 0, 0, 0, 0, 0, 0, 0];
        assert_eq!(bytes_of(call, 0, NO_FILES), bytes);
        assert_eq!(reply_length_of(call), 8 + 72);
    }

    #[test]
    fn a_text_as_bytes() {
        let call = Call::SheetText { out_len: 27_088 };
        let header = [6, 0, 0, 0, 0, 0, 0, 0, 0xD0, 0x69, 0, 0, 3, 0, 0, 0, 0, 0];
        let bytes = bytes_of(call, 0, JOB_ALONE);
        assert_eq!(bytes, [&header[..], b"SRJ"].concat());
        assert_eq!(reply_length_of(call), 8 + 27_088);
    }

    #[test]
    fn a_text_by_figure_as_bytes() {
        let call = Call::SheetTextByFigure { out_len: 27_088 };
        let header = [8, 0, 0, 0, 0, 0, 0, 0, 0xD0, 0x69, 0, 0, 3, 0, 0, 0, 4, 0];
        let bytes = bytes_of(call, 0, BOTH);
        assert_eq!(bytes, [&header[..], b"FIG\x01SRJ"].concat());
        assert_eq!(reply_length_of(call), 8 + 27_088);
    }

    #[test]
    fn explanations_as_bytes() {
        let (run, rule, place, out_len) = (0x0201, 17, 0x0403, 1_024);
        let calls = [
            Call::Explain {
                run,
                rule,
                place,
                out_len,
            },
            Call::ExplainByFigure {
                run,
                rule,
                place,
                out_len,
            },
            Call::ExplainText {
                run,
                rule,
                place,
                out_len,
            },
            Call::ExplainTextByFigure {
                run,
                rule,
                place,
                out_len,
            },
        ];
        for (number, call) in (9..).zip(calls) {
            let header = [
                number, 0x5A, 1, 2, 17, 0, 3, 4, 0, 4, 0, 0, 3, 0, 0, 0, 4, 0,
            ];
            let bytes = bytes_of(call, 0x5A, BOTH);
            assert_eq!(bytes, [&header[..], b"FIG\x01SRJ"].concat());
            assert_eq!(reply_length_of(call), 8 + 1_024);
        }
    }

    #[test]
    fn longer_outputs_are_asked_for_as_far_as_a_request_can() {
        let call = Call::Reduce {
            run: 7,
            lines_len: 65_536,
            findings_len: 70_000,
        };
        let bytes = bytes_of(call, 0, NO_FILES);
        assert_eq!(bytes[8..12], [0xFF, 0xFF, 0, 0x10]);
        assert_eq!(reply_length_of(call), 8 + 65_535 + 4_096);
    }

    #[test]
    fn a_longer_job_is_cut() {
        let files = Files {
            figure: &[],
            job: &[7; 65_537],
        };
        let bytes = bytes_of(Call::RunCount, 0, files);
        assert_eq!(bytes[12..18], [0, 0, 1, 0, 0, 0]);
        assert_eq!(bytes.len(), 18 + 65_536);
    }

    #[test]
    fn a_longer_figure_is_cut_and_the_job_stands_behind_it() {
        let files = Files {
            figure: &[7; 4_097],
            job: b"SRJ",
        };
        let bytes = bytes_of(Call::SheetTextByFigure { out_len: 0 }, 0, files);
        assert_eq!(bytes[12..18], [3, 0, 0, 0, 0, 0x10]);
        assert_eq!(bytes[18..], [&[7; 4_096][..], b"SRJ"].concat());
    }

    #[test]
    fn a_reply_taken_apart() {
        let call = Call::Reduce {
            run: 7,
            lines_len: 2,
            findings_len: 1,
        };
        let reply = Request { call, fill: 0 }.reply(&[1, 0, 0, 0, 9, 0, 0, 0, 21, 22, 23]);
        assert_eq!(reply.answer, 9 << 32 | 1);
        assert_eq!(reply.outputs, [vec![21, 22], vec![23]]);
    }
}
