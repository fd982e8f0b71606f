//! Measures the proved library's `reduce`, `sheet_text`, `explain` and `explain_text`, also
//! by a figure, against the independent program's, in one run, on the same files and the
//! same lent buffers, taking turns. What is shown is a ratio, proved over independent, with
//! its spread over the batches.
//!
//! The proved library's archive is for x86-64, and so is all of this.

#![cfg(target_arch = "x86_64")]
#![forbid(unsafe_code)]

mod measure;

use independent::samples;

use crate::measure::{measured, Call, Finding, Subject};

pub fn print_table() {
    println!("Each batch times both sides in turn, on the same job and outputs; the");
    println!("outputs are not cleared between calls. A ratio is proved over independent.");
    println!();
    println!("| Job | Proved, ns | Independent, ns | Ratio, median | 10th to 90th percentile |");
    println!("|---|---|---|---|---|");
    for subject in subjects() {
        println!("{}", measured(&subject));
    }
}

fn subjects() -> Vec<Subject> {
    let longest = samples::longest();
    // The runs of the longest job of version 2 have the same numbers.
    let numbers: Vec<u16> = longest.runs.iter().map(|run| run.number).collect();
    let (first, last) = (numbers[0], numbers[numbers.len() - 1]);
    let longest = longest.bytes();
    let longest_2 = samples::longest_version_2().bytes();
    let mut bad_mark = longest.clone();
    bad_mark[0] = b'X';
    let mut left_over = longest.clone();
    left_over.push(0);

    let figure = samples::made_up().bytes();
    let mut refused_figure = figure.clone();
    refused_figure.push(0);

    let reduce = |name, job, run| Subject {
        name,
        figure: None,
        job,
        call: Call::Reduce { run },
    };
    let text = |name, job| Subject {
        name,
        figure: None,
        job,
        call: Call::SheetText,
    };
    let explain = |name, job, finding| Subject {
        name,
        figure: None,
        job,
        call: Call::Explain(finding),
    };
    let explain_text = |name, job, finding| Subject {
        name,
        figure: None,
        job,
        call: Call::ExplainText(finding),
    };
    let by = |figure: &[u8], subject| Subject {
        figure: Some(figure.to_vec()),
        ..subject
    };
    let worked = samples::worked().bytes();
    // The leak of its only segment; line 3 that is 0, which it does not have; the leak of the
    // longest job's last segment.
    let leak = Finding {
        run: 7,
        rule: 11,
        place: 1,
    };
    let no_volume = Finding {
        run: 7,
        rule: 12,
        place: 0,
    };
    let last_leak = Finding {
        run: last,
        rule: 11,
        place: 16,
    };
    vec![
        reduce("worked job", worked.clone(), 7),
        reduce("longest job, first run", longest.clone(), first),
        reduce("longest job, last run", longest.clone(), last),
        reduce(
            "longest job of version 2, first run",
            longest_2.clone(),
            first,
        ),
        reduce(
            "longest job of version 2, last run",
            longest_2.clone(),
            last,
        ),
        reduce("refused early: wrong mark", bad_mark, first),
        reduce("refused at its end: a byte left over", left_over, first),
        text("text of the worked job", worked.clone()),
        text("text of the longest job", longest.clone()),
        text("text of the longest job of version 2", longest_2),
        by(&figure, reduce("worked job by a figure", worked.clone(), 7)),
        by(
            &figure,
            reduce("longest job, last run, by a figure", longest.clone(), last),
        ),
        by(
            &refused_figure,
            reduce("refused figure: a byte left over", worked.clone(), 7),
        ),
        by(
            &figure,
            text("text of the worked job by a figure", worked.clone()),
        ),
        explain("finding of the worked job explained", worked.clone(), leak),
        explain("finding that it does not have", worked.clone(), no_volume),
        explain(
            "finding of the longest job's last run explained",
            longest.clone(),
            last_leak,
        ),
        explain_text("text of the first explained", worked.clone(), leak),
        by(
            &figure,
            explain_text("the same by a figure", worked.clone(), leak),
        ),
    ]
}
