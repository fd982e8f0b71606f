//! The committed examples are what the samples make today.

use std::fs;
use std::path::Path;

use independent::{explanations, explanations_by_figure, samples, sheet, sheet_by_figure};

fn example(file: &str) -> Vec<u8> {
    let folder = Path::new(concat!(env!("CARGO_MANIFEST_DIR"), "/../examples"));
    fs::read(folder.join(file)).unwrap_or_else(|error| panic!("{file}: {error}"))
}

#[test]
fn every_job_is_current() {
    for (name, sample) in samples::WITH_SHEETS.iter().chain(&samples::WITHOUT) {
        let file = format!("{name}.job");
        assert!(sample().bytes() == example(&file), "{file} is out of date");
    }
}

#[test]
fn every_sheet_is_current() {
    for (name, sample) in samples::WITH_SHEETS {
        let file = format!("{name}.txt");
        let text = sheet(&sample().bytes());
        assert!(text == example(&file), "{file} is out of date");
    }
}

#[test]
fn every_explanation_is_current() {
    for (name, sample) in samples::EXPLAINED {
        let file = format!("{name}.explained");
        let text = explanations(&sample().bytes());
        assert!(text == example(&file), "{file} is out of date");
    }
}

#[test]
fn every_figure_and_what_stands_by_it_is_current() {
    for named in samples::FIGURES {
        let figure = (named.figure)().bytes();
        let file = format!("{}.fig", named.name);
        assert!(figure == example(&file), "{file} is out of date");
        for (job, sample) in named.with_sheets {
            let file = format!("{}/{job}.txt", named.name);
            let text = sheet_by_figure(&figure, &sample().bytes());
            assert!(text == example(&file), "{file} is out of date");
        }
        for (job, sample) in named.explained {
            let file = format!("{}/{job}.explained", named.name);
            let text = explanations_by_figure(&figure, &sample().bytes());
            assert!(text == example(&file), "{file} is out of date");
        }
    }
}
