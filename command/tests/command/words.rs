//! Words that are not understood, help, the version, and the start of the gate.

use std::fs;

use crate::folder::{project, Folder};
use crate::run::{ended, leverbonnet, Ended};

fn asked(words: &[&str]) -> Ended {
    ended(&mut leverbonnet(words))
}

#[test]
fn every_complaint_is_one_sentence_and_status_1() {
    for (words, sentence) in [
        (
            &["frob"][..],
            "frob is no command: there are sheet, explain, layout",
        ),
        (&["--frob"], "--frob is no command"),
        (&[""], "'' is no command"),
        (
            &["sheet", "--frob"],
            "--frob is no option of sheet, which knows --words, --figure FIGURE and --help.",
        ),
        (
            &["sheet", "examples/worked.job", "--figure"],
            "the word behind --figure is missing",
        ),
        (
            &["sheet", "--figure", "--words", "examples/worked.job"],
            "the word behind --figure is missing",
        ),
        (
            &["sheet", "--figure", "a", "--figure", "b"],
            "--figure can be given once.",
        ),
        (
            &["sheet", "--figure=examples/made-up.fig"],
            "--figure=examples/made-up.fig is no option of sheet, which knows --words, --figure",
        ),
        (&["sheet", "--words=no"], "--words=no is no option of sheet"),
        (
            &["sheet", "--words", "-", "-"],
            "standard input can be read once",
        ),
        (
            &["layout", "round", "6", "240", "250", "--words"],
            "--words is no option of layout",
        ),
        (&["sheet", "examples/worked.job", "-x"], "-x is no option"),
        (&["explain"], "the FILE of the job is missing"),
        (
            &["explain", "--figure", "examples/made-up.fig"],
            "the FILE of the job is missing",
        ),
        (
            &["explain", "examples/several-runs.job", "20", "11"],
            "the PLACE of the finding is missing",
        ),
        (
            &["explain", "examples/several-runs.job", "twenty"],
            "the run twenty is no whole number up to 65535.",
        ),
        (
            &["explain", "examples/several-runs.job", "65536"],
            "the run 65536 is no whole number up to 65535.",
        ),
        (
            &["explain", "examples/several-runs.job", "20", "11", "3rd"],
            "the place 3rd is no whole number up to 65535.",
        ),
        (
            &["explain", "examples/several-runs.job", "20", "11", "3", "4"],
            "4 is one word too many",
        ),
        (
            &["explain", "examples/several-runs.job", "--words"],
            "--words is no option of explain, which knows --figure FIGURE and --help.",
        ),
        (
            &["explain", "-", "--figure", "-"],
            "standard input can be read once",
        ),
        (&["layout"], "the shape is missing"),
        (&["layout", "round", "x"], "the diameter is missing"),
        (
            &["layout", "square", "9", "400", "300"],
            "neither round nor rect",
        ),
        (
            &["layout", "round", "six", "240", "250"],
            "the number of points six",
        ),
        (&["layout", "round", "6", "240"], "the nozzle is missing"),
        (
            &["layout", "round", "6", "240", "250", "1"],
            "1 is one word too many",
        ),
        (
            &["layout", "round", "6", "240", "-250"],
            "-250 is no option of layout",
        ),
        (
            &["layout", "round", "6", "240", "250", "--png"],
            "--svg and --help",
        ),
        (&["install"], "the folder DIR is missing"),
        (&["install", "a", "b"], "b is one word too many"),
        (&["test", "now"], "now is one word too many"),
        (&["test", "--now"], "--now is no option of test"),
        (&["help", "frob"], "frob is no command"),
        (&["help", "sheet", "layout"], "layout is one word too many"),
        (&["--version", "2"], "2 is one word too many"),
    ] {
        asked(words).assert_one_sentence(1, sentence);
    }
}

#[test]
fn every_word_has_its_help() {
    for word in ["sheet", "explain", "layout", "install", "test", "help"] {
        let help = asked(&[word, "--help"]);
        assert_eq!((help.status, help.told.as_str()), (0, ""), "{help:?}");
        assert!(help.out.starts_with(&format!("leverbonnet {word}")));
        assert_eq!(asked(&[word, "-h"]), help);
        assert_eq!(asked(&["help", word]), help);
    }
    assert_eq!(asked(&["--version", "--help"]).status, 0);
}

#[test]
fn without_a_word_the_help_lists_them_all() {
    let help = asked(&[]);
    assert_eq!((help.status, help.told.as_str()), (0, ""));
    for word in [
        "sheet",
        "explain FILE",
        "layout round",
        "layout rect",
        "install",
        "test",
        "help",
        "--version",
    ] {
        assert!(
            help.out.contains(&format!("  leverbonnet {word}")),
            "{word}"
        );
    }
    for words in [["--help"], ["-h"], ["help"]] {
        assert_eq!(asked(&words), help);
    }
}

#[test]
fn the_help_of_sheets_tells_of_words_and_figures() {
    let help = asked(&["sheet", "--words", "--help"]).out;
    assert!(help.starts_with("leverbonnet sheet [--words] [--figure FIGURE] [FILE..]\n"));
    assert!(
        help.contains("--words prints each job for a person"),
        "{help}"
    );
    assert!(help.contains("--figure reads the file FIGURE"), "{help}");
    assert_eq!(asked(&["sheet", "--figure", "--help"]).out, help);
}

#[test]
fn the_help_of_the_tests_warns_of_what_they_do() {
    let help = asked(&["test", "--help"]).out;
    assert!(help.contains("deletes target/"), "{help}");
    assert!(help.contains("minutes"), "{help}");
}

#[test]
fn the_version_is_cargos() {
    let version = asked(&["--version"]);
    let expected = format!("leverbonnet {}\n", env!("CARGO_PKG_VERSION"));
    assert_eq!((version.out, version.status), (expected, 0));
}

/// A project whose gate says that it was started, and ends with status 7.
fn project_with_a_gate() -> Folder {
    let folder = Folder::new();
    folder.put_script(".ci/run", "echo started >started; echo gate; exit 7");
    folder
}

fn asked_in(folder: &Folder, words: &[&str]) -> Ended {
    let mut command = leverbonnet(words);
    command.env("LEVERBONNET_PROJECT", &**folder);
    ended(command.current_dir(&**folder))
}

#[test]
fn the_tests_are_the_projects_gate() {
    let folder = project_with_a_gate();
    let ended = asked_in(&folder, &["test"]);
    assert_eq!((ended.out.as_str(), ended.status), ("gate\n", 7));
}

#[test]
fn asking_for_help_or_with_a_spare_word_starts_no_test() {
    let folder = project_with_a_gate();
    for words in [
        ["test", "--help"],
        ["test", "-h"],
        ["help", "test"],
        ["test", "all"],
    ] {
        asked_in(&folder, &words);
        assert!(!folder.join("started").exists(), "{words:?}");
    }
}

#[test]
fn where_there_is_no_project_there_are_no_tests() {
    asked(&["test"]).assert_one_sentence(1, "run ./leverbonnet test there");
}

#[test]
fn a_gate_that_can_not_be_started_is_told() {
    let folder = Folder::new();
    asked_in(&folder, &["test"]).assert_one_sentence(1, "can not be started");
}

#[test]
fn the_gate_of_this_project_can_be_started() {
    use std::os::unix::fs::PermissionsExt;
    let gate = fs::metadata(project().join(".ci/run")).expect("it is there");
    assert_eq!(gate.permissions().mode() & 0o111, 0o111);
}
