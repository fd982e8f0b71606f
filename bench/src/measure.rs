//! Timing one job on both sides, batch by batch.

use std::fmt;
use std::hint::black_box;
use std::time::{Duration, Instant};

use leverbonnet::{linked, MOST_TEXT};

const BATCHES: usize = 1_001;

/// How long the independent side's part of a batch should last: short, so that
/// few batches share their core with something else.
const BATCH: Duration = Duration::from_micros(200);

const LINES_LENGTH: usize = 180;

/// Enough for any run: 4 bytes for each of 98 findings.
const FINDINGS_LENGTH: usize = 392;

pub struct Subject {
    pub name: &'static str,
    /// None for the call without one.
    pub figure: Option<Vec<u8>>,
    pub job: Vec<u8>,
    pub call: Call,
}

pub enum Call {
    Reduce { run: u16 },
    SheetText,
    Explain(Finding),
    ExplainText(Finding),
}

/// A finding of a run, which it may have or not.
#[derive(Clone, Copy)]
pub struct Finding {
    pub run: u16,
    pub rule: u16,
    pub place: u16,
}

struct Side {
    reduce: fn(&[u8], u16, &mut [u8], &mut [u8]) -> u64,
    reduce_by_figure: ReduceByFigure,
    sheet_text: fn(&[u8], &mut [u8]) -> u64,
    sheet_text_by_figure: fn(&[u8], &[u8], &mut [u8]) -> u64,
    explain: Explain,
    explain_by_figure: ExplainByFigure,
    explain_text: Explain,
    explain_text_by_figure: ExplainByFigure,
}

type ReduceByFigure = fn(&[u8], &[u8], u16, &mut [u8], &mut [u8]) -> u64;
type Explain = fn(&[u8], u16, u16, u16, &mut [u8]) -> u64;
type ExplainByFigure = fn(&[u8], &[u8], u16, u16, u16, &mut [u8]) -> u64;

const PROVED: Side = Side {
    reduce: linked::reduce,
    reduce_by_figure: linked::reduce_by_figure,
    sheet_text: linked::sheet_text,
    sheet_text_by_figure: linked::sheet_text_by_figure,
    explain: linked::explain,
    explain_by_figure: linked::explain_by_figure,
    explain_text: linked::explain_text,
    explain_text_by_figure: linked::explain_text_by_figure,
};

const INDEPENDENT: Side = Side {
    reduce: independent::reduce,
    reduce_by_figure: independent::reduce_by_figure,
    sheet_text: independent::sheet_text,
    sheet_text_by_figure: independent::sheet_text_by_figure,
    explain: independent::explain,
    explain_by_figure: independent::explain_by_figure,
    explain_text: independent::explain_text,
    explain_text_by_figure: independent::explain_text_by_figure,
};

struct Buffers {
    lines: [u8; LINES_LENGTH],
    findings: [u8; FINDINGS_LENGTH],
    text: [u8; MOST_TEXT],
}

/// A row of the table.
pub struct Measured {
    name: &'static str,
    proved: f64,
    independent: f64,
    ratios: Vec<f64>,
}

pub fn measured(subject: &Subject) -> Measured {
    let mut buffers = Buffers {
        lines: [0; LINES_LENGTH],
        findings: [0; FINDINGS_LENGTH],
        text: [0; MOST_TEXT],
    };
    assert_eq!(
        called(&PROVED, subject, &mut buffers),
        called(&INDEPENDENT, subject, &mut buffers),
        "the two sides answer alike"
    );
    let calls = calls_per_batch(subject, &mut buffers);
    let mut proved = Vec::with_capacity(BATCHES);
    let mut independent = Vec::with_capacity(BATCHES);
    for batch in 0..BATCHES {
        let mut time_proved = |buffers: &mut Buffers| {
            proved.push(nanoseconds(&PROVED, subject, buffers, calls));
        };
        // Who goes first changes from batch to batch.
        if batch % 2 == 0 {
            time_proved(&mut buffers);
        }
        let taken = nanoseconds(&INDEPENDENT, subject, &mut buffers, calls);
        independent.push(taken);
        if batch % 2 == 1 {
            time_proved(&mut buffers);
        }
    }
    let pairs = proved.iter().zip(&independent);
    Measured {
        name: subject.name,
        ratios: pairs.map(|(ours, theirs)| ours / theirs).collect(),
        proved: at_percent(&mut proved, 50),
        independent: at_percent(&mut independent, 50),
    }
}

fn called(side: &Side, subject: &Subject, buffers: &mut Buffers) -> u64 {
    let job = black_box(&subject.job[..]);
    let figure = black_box(subject.figure.as_deref());
    let Buffers {
        lines,
        findings,
        text,
    } = buffers;
    black_box(match (&subject.call, figure) {
        (Call::Reduce { run }, None) => (side.reduce)(job, black_box(*run), lines, findings),
        (Call::Reduce { run }, Some(figure)) => {
            (side.reduce_by_figure)(figure, job, black_box(*run), lines, findings)
        }
        (Call::SheetText, None) => (side.sheet_text)(job, text),
        (Call::SheetText, Some(figure)) => (side.sheet_text_by_figure)(figure, job, text),
        (Call::Explain(finding), None) => explained(side.explain, job, finding, text),
        (Call::Explain(finding), Some(figure)) => {
            explained_by(side.explain_by_figure, figure, job, finding, text)
        }
        (Call::ExplainText(finding), None) => explained(side.explain_text, job, finding, text),
        (Call::ExplainText(finding), Some(figure)) => {
            explained_by(side.explain_text_by_figure, figure, job, finding, text)
        }
    })
}

fn explained(call: Explain, job: &[u8], finding: &Finding, out: &mut [u8]) -> u64 {
    let Finding { run, rule, place } = black_box(*finding);
    call(job, run, rule, place, out)
}

fn explained_by(
    call: ExplainByFigure,
    figure: &[u8],
    job: &[u8],
    finding: &Finding,
    out: &mut [u8],
) -> u64 {
    let Finding { run, rule, place } = black_box(*finding);
    call(figure, job, run, rule, place, out)
}

/// Nanoseconds a call, over that many.
fn nanoseconds(side: &Side, subject: &Subject, buffers: &mut Buffers, calls: u32) -> f64 {
    let started = Instant::now();
    for _ in 0..calls {
        called(side, subject, buffers);
        black_box(&*buffers);
    }
    started.elapsed().as_nanos() as f64 / f64::from(calls)
}

fn calls_per_batch(subject: &Subject, buffers: &mut Buffers) -> u32 {
    let mut calls = 1;
    loop {
        let taken = nanoseconds(&INDEPENDENT, subject, buffers, calls) * f64::from(calls);
        if taken >= BATCH.as_nanos() as f64 {
            return calls;
        }
        calls *= 2;
    }
}

/// The value with so many percent of the values below it.
fn at_percent(values: &mut [f64], percent: usize) -> f64 {
    values.sort_by(f64::total_cmp);
    values[(values.len() - 1) * percent / 100]
}

impl fmt::Display for Measured {
    fn fmt(&self, f: &mut fmt::Formatter) -> fmt::Result {
        let mut ratios = self.ratios.clone();
        let [low, median, high] = [10, 50, 90].map(|percent| at_percent(&mut ratios, percent));
        write!(
            f,
            "| {} | {:.0} | {:.0} | {median:.2} | {low:.2} to {high:.2} |",
            self.name, self.proved, self.independent
        )
    }
}
