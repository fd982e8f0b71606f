//! `sheet --figure`: jobs by a figure, figures that are refused, and figures that
//! can't be read.

use std::fs::{self, File, Permissions};
use std::io::Write;
use std::os::unix::fs::PermissionsExt;
use std::path::Path;
use std::process::Command;

use crate::folder::{example, example_bytes, example_text, with_ending, Folder};
use crate::inputs::{terminal, END_OF_FILE};
use crate::run::{ended, ended_with_input, leverbonnet, shell, Ended};
use crate::user::held_back;

const MADE_UP: &str = "examples/made-up.fig";
const FEWER: &str = "examples/fewer-points.job";
const MORE: &str = "examples/more-points.job";

/// A file that is no figure: its mark is another.
const BAD: &str = "examples/worked.job";

/// Plain and in words, with the ending of the stored sheets.
const WAYS: [(&[&str], &str); 2] = [(&["sheet"], "txt"), (&["sheet", "--words"], "words")];

/// What is printed either way.
fn either_way(words: &[&str]) -> [Ended; 2] {
    WAYS.map(|(way, _)| ended(leverbonnet(way).args(words)))
}

/// The sheets by a figure lie in the folder of its name.
#[test]
fn every_stored_sheet_by_a_figure_is_printed_plain_and_in_words() {
    let mut compared = 0;
    for figure in with_ending(&example(""), "fig") {
        for text in with_ending(&figure.with_extension(""), "txt") {
            let name = text.with_extension("job");
            let job = example("").join(name.file_name().expect("it has a name"));
            for (way, ending) in WAYS {
                let stored = fs::read_to_string(text.with_extension(ending)).expect("it is text");
                let mut command = leverbonnet(way);
                let printed = ended(command.arg(&job).arg("--figure").arg(&figure));
                assert_eq!((printed.out, printed.status), (stored, 0));
                assert_eq!(printed.told, "");
                compared += 1;
            }
        }
    }
    assert!(compared >= 4, "the stored sheets are found");
}

#[test]
fn the_figure_may_stand_before_its_jobs_and_behind_them() {
    let expected = format!(
        "==> {FEWER} <==\n{}==> {MORE} <==\n{}",
        example_text("made-up/fewer-points.txt"),
        example_text("made-up/more-points.txt")
    );
    for words in [
        ["--figure", MADE_UP, FEWER, MORE],
        [FEWER, "--figure", MADE_UP, MORE],
        [FEWER, MORE, "--figure", MADE_UP],
    ] {
        let printed = ended(leverbonnet(&["sheet"]).args(words));
        assert_eq!((printed.out, printed.status), (expected.clone(), 0));
    }
}

/// What a figure leaves as it was: the sheets of jobs far from disturbances, and
/// refused jobs, with their place, their sentence and their status.
#[test]
fn a_job_that_no_figure_changes_is_printed_as_without_one() {
    for words in [
        &["examples/worked.job"][..],
        &["examples/refused.job"],
        &["examples/missing.job"],
        &["examples/refused.job", "examples/worked.job"],
    ] {
        let by_figure = [words, &["--figure", MADE_UP]].concat();
        assert_eq!(either_way(&by_figure), either_way(words), "{words:?}");
    }
}

#[test]
fn a_refused_figure_is_all_that_is_printed() {
    let clause = "the mark is not FIG (14 at byte 0 of the figure).";
    let told = format!("leverbonnet: {BAD}: refused, {clause}\n");
    for jobs in [
        &["examples/worked.job"][..],
        &["examples/worked.job", "examples/several-runs.job"],
        &["examples/refused.job", "examples/missing.job"],
        &[],
    ] {
        let lines = ["REFUSED 14 0\n".into(), format!("Refused: {clause}\n")];
        let printed = either_way(&[jobs, &["--figure", BAD]].concat());
        for (printed, line) in printed.into_iter().zip(lines) {
            assert_eq!((printed.out, printed.status), (line, 2), "{jobs:?}");
            assert_eq!(printed.told, told, "{jobs:?}");
        }
    }
}

#[test]
fn a_refused_figure_is_named_with_the_field() {
    for (made, place, clause) in [
        ("printf ''", 0, "the file ends before the mark is complete"),
        (
            "head -c 21 examples/made-up.fig",
            21,
            "the file ends before the points for a rectangular stack of the 4th step from the \
             last disturbance are complete",
        ),
        (r"printf 'FIG\2\0'", 3, "the version is 2 and not 1"),
        (
            r"printf 'FIG\1\0\21'",
            5,
            "the number of steps from the last disturbance is 17 and not in its range, 1 to 16",
        ),
        (
            r"printf 'FIG\1\0\1\0\0\14\14\2\144\0\14\14\144\0'",
            15,
            "the least distance of the 2nd step to the next disturbance is 100 and not above that \
             of the step before, 100, in units of 0.01 diameter",
        ),
        (
            r"printf 'FIG\1\0\1\0\0\14\14\2\0\0\14\14\144\0\14\15'",
            18,
            "the points for a rectangular stack of the 2nd step to the next disturbance are 13 \
             and above those of the step before, 12",
        ),
        (
            "{ cat examples/made-up.fig; echo; }",
            35,
            "1 byte is left over behind the last step",
        ),
    ] {
        let line = format!(r#"{made} | "$1" sheet --figure - {FEWER}"#);
        let refused = ended(&mut shell(&line));
        assert_eq!(refused.out, format!("REFUSED 14 {place}\n"), "{made}");
        let sentence = format!("{clause} (14 at byte {place} of the figure).\n");
        let told = format!("leverbonnet: standard input: refused, {sentence}");
        assert_eq!((refused.told, refused.status), (told, 2));
        let line = format!(r#"{made} | "$1" sheet --words --figure - {FEWER}"#);
        assert_eq!(ended(&mut shell(&line)).out, format!("Refused: {sentence}"));
    }
}

#[test]
fn a_figure_is_read_from_standard_input_by_a_dash_and_as_a_device() {
    let figure = example_bytes("made-up.fig");
    for name in ["-", "/dev/stdin"] {
        for (way, ending) in WAYS {
            let mut command = leverbonnet(way);
            let printed = ended_with_input(command.args(["--figure", name, FEWER]), &figure);
            let stored = example_text(&format!("made-up/fewer-points.{ending}"));
            assert_eq!((printed.out, printed.status), (stored, 0), "{name}");
        }
    }
}

#[test]
fn with_a_figure_the_job_is_read_from_standard_input_too() {
    let job = example_bytes("fewer-points.job");
    for words in [&["--figure", MADE_UP][..], &["-", "--figure", MADE_UP]] {
        let printed = ended_with_input(leverbonnet(&["sheet"]).args(words), &job);
        let stored = example_text("made-up/fewer-points.txt");
        assert_eq!((printed.out, printed.status), (stored, 0), "{words:?}");
    }
}

#[test]
fn standard_input_is_not_read_for_both() {
    for words in [&["--figure", "-", "-"][..], &["-", FEWER, "--figure", "-"]] {
        for printed in either_way(words) {
            printed.assert_one_sentence(1, "standard input can be read once");
        }
    }
    for printed in either_way(&["--figure", "-"]) {
        printed.assert_one_sentence(1, "standard input is the figure: name the FILE of the job.");
    }
}

/// Asserts that a figure asked for by these words of the shell is told to be unread,
/// and that nothing is printed.
fn assert_unread(words: &str, sentence: &str) {
    for way in ["sheet", "sheet --words"] {
        let line = format!(r#""$1" {way} {FEWER} examples/refused.job --figure {words}"#);
        ended(&mut shell(&line)).assert_one_sentence(1, sentence);
    }
}

#[test]
fn a_figure_that_can_not_be_read_is_no_refusal() {
    for (words, sentence) in [
        (
            "examples/missing.fig",
            "examples/missing.fig can not be read: No such file or directory.",
        ),
        ("examples", "examples can not be read: Is a directory."),
        (
            "- <examples",
            "standard input can not be read: Is a directory.",
        ),
        (
            "/proc/self/mem",
            "/proc/self/mem can not be read: Input/output error.",
        ),
        ("- <&-", "standard input can not be read: It is closed."),
        (
            "- 0>/dev/null",
            "standard input can not be read: Bad file descriptor.",
        ),
    ] {
        assert_unread(words, sentence);
    }
}

fn asked_by_figure(figure: &Path) -> Command {
    let mut command = leverbonnet(&["sheet", FEWER, "--figure"]);
    command.arg(figure);
    command
}

#[test]
fn a_figure_that_may_not_be_read_is_no_refusal() {
    let folder = Folder::new();
    let figure = folder.join("made-up.fig");
    fs::copy(example("made-up.fig"), &figure).expect("the folder is ours");
    fs::set_permissions(&figure, Permissions::from_mode(0)).expect("it is ours");
    let mut command = asked_by_figure(&figure);
    ended(held_back(&mut command)).assert_one_sentence(1, "can not be read: Permission denied.");
}

#[test]
fn an_endless_figure_has_an_end() {
    let zeros = ended(&mut asked_by_figure(Path::new("/dev/zero")));
    assert_eq!((zeros.out.as_str(), zeros.status), ("REFUSED 14 0\n", 2));
    let line = format!(r#"cat {MADE_UP} /dev/zero | "$1" sheet --words --figure - {FEWER}"#);
    let left_over = ended(&mut shell(&line));
    let length = example_bytes("made-up.fig").len();
    let expected = format!(
        "Refused: 1,000 bytes or more are left over behind the last step (14 at byte {length} of \
         the figure).\n"
    );
    assert_eq!((left_over.out, left_over.status), (expected, 2));
}

#[test]
fn at_a_terminal_a_hint_says_that_the_figure_is_waited_for() {
    let (mut typed, input): (File, File) = terminal();
    typed.write_all(END_OF_FILE).expect("it can be typed at");
    let mut command = asked_by_figure(Path::new("-"));
    let refused = ended(command.stdin(input));
    assert_eq!(refused.status, 2);
    let hint = "leverbonnet: the figure is read from standard input, up to the end of the file.";
    assert_eq!(refused.told.lines().next(), Some(hint));
}

/// Where the proved calls go over a pipe and the program `calls` can't be asked, the
/// figure is not refused.
#[cfg(not(all(target_arch = "x86_64", not(feature = "piped"))))]
#[test]
fn a_figure_is_not_refused_where_the_calls_are_not_reached() {
    for way in [&["sheet"][..], &["sheet", "--words"]] {
        let mut command = leverbonnet(way);
        command.args([FEWER, MORE, "--figure", MADE_UP]);
        command.env("LEVERBONNET_CALLS", "/missing/calls");
        let sentence = format!("{MADE_UP}: the proved calls can not be reached: ");
        ended(&mut command).assert_one_sentence(1, &sentence);
    }
}
