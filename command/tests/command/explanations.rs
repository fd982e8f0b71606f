//! `explain`: findings, runs and jobs explained, and those that are not there.

use std::fs;
use std::path::{Path, PathBuf};

use crate::folder::{example, example_bytes, example_text, with_ending};
use crate::run::{ended, ended_with_input, leverbonnet, shell, Ended};

const SEVERAL: &str = "examples/several-runs.job";
const WRONG: &str = "examples/wrong-points.job";
const MADE_UP: &str = "examples/made-up.fig";

/// A file that is no figure: its mark is another.
const BAD_FIGURE: &str = "examples/worked.job";

fn explain(words: &[&str]) -> Ended {
    ended(leverbonnet(&["explain"]).args(words))
}

/// Asserts that this was printed, and nothing told.
fn assert_printed(ended: Ended, text: &str) {
    assert_eq!((ended.out.as_str(), ended.status), (text, 0), "{ended:?}");
    assert_eq!(ended.told, "");
}

/// Asserts that the line of a refusal alone was printed, and one sentence told.
fn assert_refused(ended: &Ended, line: &str, sentence: &str) {
    let out = format!("{line}\n");
    assert_eq!((&ended.out, ended.status), (&out, 2), "{ended:?}");
    ended.assert_told_one(sentence);
}

/// The job whose explanation is stored in that file.
fn job_of(stored: &Path) -> PathBuf {
    let name = stored.with_extension("job");
    example("").join(name.file_name().expect("it has a name"))
}

#[test]
fn every_stored_explanation_is_printed() {
    let stored = with_ending(&example(""), "explained");
    assert!(!stored.is_empty(), "the stored explanations are found");
    for path in stored {
        let text = fs::read_to_string(&path).expect("it is text");
        let printed = ended(leverbonnet(&["explain"]).arg(job_of(&path)));
        assert_printed(printed, &text);
    }
}

/// What goes by a figure lies in the folder of its name.
#[test]
fn every_stored_explanation_by_a_figure_is_printed() {
    let mut compared = 0;
    for figure in with_ending(&example(""), "fig") {
        for path in with_ending(&figure.with_extension(""), "explained") {
            let text = fs::read_to_string(&path).expect("it is text");
            let mut command = leverbonnet(&["explain"]);
            let command = command.arg(job_of(&path)).arg("--figure").arg(&figure);
            assert_printed(ended(command), &text);
            compared += 1;
        }
    }
    assert!(compared > 0, "the stored explanations are found");
}

/// The lines of an explanation that a sheet has too are that sheet's, in its order.
fn assert_of_the_sheet(explained: &str, sheet: &str) {
    let is_line = |line: &&str| line.starts_with(|first: char| first.is_ascii_digit());
    let told = explained.lines().filter(|line| !line.starts_with("  "));
    let of_the_sheet = sheet.lines().filter(|line| !is_line(line));
    assert!(told.eq(of_the_sheet), "{explained}");
}

#[test]
fn runs_and_findings_are_those_of_the_sheet() {
    for path in with_ending(&example(""), "job") {
        let printed =
            |word: &str, options: &[&str]| ended(leverbonnet(&[word]).arg(&path).args(options));
        for options in [&[][..], &["--figure", MADE_UP]] {
            let (explained, sheet) = (printed("explain", options), printed("sheet", options));
            assert_eq!(explained.status, sheet.status);
            assert_of_the_sheet(&explained.out, &sheet.out);
        }
    }
}

/// The parts of a text, each from a line that begins one to the next such line.
fn parts(text: &str, begins: impl Fn(&str) -> bool) -> Vec<String> {
    let mut parts: Vec<String> = vec![];
    for line in text.split_inclusive('\n') {
        match parts.last_mut() {
            Some(part) if !begins(line) => part.push_str(line),
            _ => parts.push(line.into()),
        }
    }
    parts
}

/// The runs of a stored explanation by their numbers.
fn runs(stored: &str) -> Vec<(String, String)> {
    let runs = parts(&example_text(stored), |line| line.starts_with("RUN "));
    let number = |run: &str| run.split(' ').nth(1).expect("a run has a number").into();
    runs.into_iter().map(|run| (number(&run), run)).collect()
}

#[test]
fn a_run_alone_is_its_part_of_the_job() {
    let runs = runs("several-runs.explained");
    assert_eq!(runs.len(), 9);
    for (number, run) in runs {
        assert_printed(explain(&[SEVERAL, &number]), &run);
    }
}

#[test]
fn a_finding_alone_stands_below_the_line_of_its_run() {
    let mut found = 0;
    for (stored, words) in [
        ("several-runs.explained", &[SEVERAL][..]),
        (
            "made-up/wrong-points.explained",
            &[WRONG, "--figure", MADE_UP],
        ),
    ] {
        for (number, run) in runs(stored) {
            let (run_line, findings) = run.split_once('\n').expect("a line has an end");
            for finding in parts(findings, |line| !line.starts_with(' ')) {
                let line: Vec<&str> = finding.split_whitespace().collect();
                let (rule, place) = (line[1], line[2]);
                let asked = [words, &[&number, rule, place]].concat();
                assert_printed(explain(&asked), &format!("{run_line}\n{finding}"));
                found += 1;
            }
        }
    }
    assert_eq!(found, 27 + 4);
}

#[test]
fn a_run_without_findings_is_its_line_alone() {
    assert_printed(explain(&[SEVERAL, "1"]), "RUN 1 ACCEPTED\n");
}

#[test]
fn a_finding_is_asked_for_by_its_rule_and_its_place() {
    assert_printed(
        explain(&[SEVERAL, "20", "11", "3"]),
        "RUN 20 VOID\nNOTE 11 3\n  COMPARED 630000 ABOVE 360000  5 x time x leak; the smaller of \
         100 x time and 12 x volume (time in seconds, leak in 0.001 cfm, volume in 0.001 ft3)\n",
    );
    assert_printed(
        explain(&[SEVERAL, "3", "2", "0"]),
        "RUN 3 VOID\nFAULT 2 0\n  CERTIFICATE PITOT BEFORE NONE\n  CERTIFICATE PITOT AFTER 8990\n",
    );
}

#[test]
fn a_run_that_the_job_does_not_have() {
    for words in [
        &["4"][..],
        &["0"],
        &["65535"],
        &["4", "11", "1"],
        &["4", "--figure", MADE_UP],
        &["4", "11", "1", "--figure", MADE_UP],
    ] {
        assert_refused(
            &explain(&[&[SEVERAL], words].concat()),
            "REFUSED 10 0",
            "examples/several-runs.job: refused, the job has no run of that number (10).",
        );
    }
}

#[test]
fn a_finding_that_the_run_does_not_have() {
    for words in [
        &["1", "11", "1"][..],
        &["20", "11", "2"],
        &["20", "10", "0"],
        &["20", "13", "0"],
        &["20", "65535", "65535"],
        &["20", "267", "1"],
        &["2", "9", "0", "--figure", MADE_UP],
    ] {
        assert_refused(
            &explain(&[&[SEVERAL], words].concat()),
            "REFUSED 15 0",
            "examples/several-runs.job: refused, the run does not have that finding (15).",
        );
    }
    // Run 7 has too few points by the figure, and enough without it.
    let by_figure = explain(&[WRONG, "7", "9", "0", "--figure", MADE_UP]);
    assert_eq!(by_figure.status, 0);
    let without = explain(&[WRONG, "7", "9", "0"]);
    assert_eq!(
        (without.out.as_str(), without.status),
        ("REFUSED 15 0\n", 2)
    );
}

#[test]
fn a_refused_job_comes_before_its_runs() {
    for words in [&[][..], &["7"], &["8", "11", "1"], &["--figure", MADE_UP]] {
        assert_refused(
            &explain(&[&["examples/refused.job"], words].concat()),
            "REFUSED 5 167",
            "examples/refused.job: refused, the stack temperature of point 3 of the 1st run is -401",
        );
    }
}

#[test]
fn a_refused_figure_comes_before_the_job() {
    for job in [SEVERAL, "examples/refused.job", "examples/missing.job"] {
        assert_refused(
            &explain(&[job, "4", "--figure", BAD_FIGURE]),
            "REFUSED 14 0",
            "examples/worked.job: refused, the mark is not FIG (14 at byte 0 of the figure).",
        );
    }
}

#[test]
fn standard_input_is_the_job_or_the_figure() {
    let explained = |words: &[&str], input: &str| {
        ended_with_input(leverbonnet(&["explain"]).args(words), &example_bytes(input))
    };
    let several = example_text("several-runs.explained");
    assert_printed(explained(&["-"], "several-runs.job"), &several);
    assert_printed(explained(&["/dev/stdin"], "several-runs.job"), &several);
    let by_figure = example_text("made-up/wrong-points.explained");
    let words = ["-", "--figure", MADE_UP];
    assert_printed(explained(&words, "wrong-points.job"), &by_figure);
    let words = ["--figure", "-", WRONG];
    assert_printed(explained(&words, "made-up.fig"), &by_figure);
    let refused = explained(&["-", "4"], "several-runs.job");
    assert_refused(&refused, "REFUSED 10 0", "standard input: refused, ");
}

#[test]
fn a_file_that_can_not_be_read_is_no_refusal() {
    for (words, sentence) in [
        (
            "examples/missing.job",
            "examples/missing.job can not be read: No such file or directory.",
        ),
        ("examples", "examples can not be read: Is a directory."),
        ("- <&-", "standard input can not be read: It is closed."),
        (
            "examples/worked.job --figure examples/missing.fig",
            "examples/missing.fig can not be read: No such file or directory.",
        ),
    ] {
        let line = format!(r#""$1" explain {words}"#);
        ended(&mut shell(&line)).assert_one_sentence(1, sentence);
    }
}

/// Several at once do not disturb each other.
#[test]
fn two_at_once_print_the_same() {
    let line = format!(r#""$1" explain {SEVERAL} & "$1" explain {SEVERAL} >/dev/null & wait"#);
    let printed = ended(&mut shell(&line));
    assert_printed(printed, &example_text("several-runs.explained"));
}

/// Where the proved calls go over a pipe and the program `calls` can't be asked, nothing
/// is refused.
#[cfg(not(all(target_arch = "x86_64", not(feature = "piped"))))]
#[test]
fn a_job_is_not_refused_where_the_calls_are_not_reached() {
    for words in [&[SEVERAL][..], &[SEVERAL, "4"], &[SEVERAL, "1", "11", "1"]] {
        let mut command = leverbonnet(&["explain"]);
        command
            .args(words)
            .env("LEVERBONNET_CALLS", "/missing/calls");
        let sentence = format!("{SEVERAL}: the proved calls can not be reached: ");
        ended(&mut command).assert_one_sentence(1, &sentence);
    }
}
