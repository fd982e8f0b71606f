//! A text that was not written whole is told and is never status 0, nor that
//! of a refusal.

use std::fs::{File, OpenOptions};
use std::io::Write;
use std::process::{Command, Stdio};
use std::thread;

use crate::folder::{example, example_bytes};
use crate::run::{ended, leverbonnet, shell, Ended};

/// Everything that prints, with its status where it is written.
const PRINTING: [(&[&str], i32); 21] = [
    (&["sheet", "examples/worked.job"], 0),
    (&["sheet", "examples/refused.job"], 2),
    (&["sheet", "--words", "examples/worked.job"], 0),
    (&["sheet", "--words", "examples/several-runs.job"], 0),
    (&["sheet", "--words", "examples/refused.job"], 2),
    (
        &[
            "sheet",
            "--figure",
            "examples/made-up.fig",
            "examples/fewer-points.job",
        ],
        0,
    ),
    (
        &[
            "sheet",
            "--figure",
            "examples/worked.job",
            "examples/fewer-points.job",
        ],
        2,
    ),
    (&["sheet", "--words", "--figure", "examples/worked.job"], 2),
    (&["explain", "examples/several-runs.job"], 0),
    (&["explain", "examples/several-runs.job", "1"], 0),
    (&["explain", "examples/several-runs.job", "4"], 2),
    (
        &["explain", "examples/several-runs.job", "20", "11", "2"],
        2,
    ),
    (&["explain", "examples/refused.job"], 2),
    (
        &[
            "explain",
            "examples/wrong-points.job",
            "--figure",
            "examples/worked.job",
        ],
        2,
    ),
    (&["layout", "round", "6", "240", "250"], 0),
    (&["layout", "round", "6", "240", "250", "--svg"], 0),
    (&["layout", "rect", "10", "400", "300"], 2),
    (&[], 0),
    (&["--help"], 0),
    (&["sheet", "--help"], 0),
    (&["--version"], 0),
];

fn assert_not_written(ended: &Ended, reason: &str, words: &[&str]) {
    assert_eq!(ended.status, 1, "{words:?}: {ended:?}");
    let sentence = format!("leverbonnet: standard output can not be written: {reason}.");
    let told = ended.told.lines().filter(|line| *line == sentence);
    assert_eq!(told.count(), 1, "{words:?}: {ended:?}");
}

#[test]
fn a_full_device_is_told() {
    for (words, _) in PRINTING {
        let full = OpenOptions::new().write(true).open("/dev/full");
        let full = full.expect("/dev/full is there");
        let ended = ended(leverbonnet(words).stdout(full));
        assert_not_written(&ended, "No space left on device", words);
    }
}

#[test]
fn a_closed_output_is_told() {
    for (words, _) in PRINTING {
        let ended = ended(shell(r#"program=$1; shift; "$program" "$@" >&-"#).args(words));
        assert_not_written(&ended, "It is closed", words);
    }
}

#[test]
fn an_output_open_for_reading_only_is_told() {
    for (words, _) in PRINTING {
        let input = File::open(example("worked.job")).expect("the example is there");
        let ended = ended(leverbonnet(words).stdout(input));
        assert_not_written(&ended, "Bad file descriptor", words);
    }
}

/// A pipe that nobody reads any more. What another test starts meanwhile holds
/// its reading end too, until it runs its program: so it is written to until
/// nobody takes it.
fn closed_pipe() -> Stdio {
    let mut reader = Command::new("true")
        .stdin(Stdio::piped())
        .spawn()
        .expect("true can be started");
    let mut pipe = reader.stdin.take().expect("it is piped");
    reader.wait().expect("it can be waited for");
    while pipe.write(b" ").is_ok() {
        thread::yield_now();
    }
    pipe.into()
}

#[test]
fn a_closed_pipe_is_told() {
    for (words, _) in PRINTING {
        let ended = ended(leverbonnet(words).stdout(closed_pipe()));
        assert_not_written(&ended, "Broken pipe", words);
    }
}

#[test]
fn the_null_device_takes_everything_however_it_is_open() {
    for (words, status) in PRINTING {
        for reading in [false, true] {
            let null = OpenOptions::new()
                .read(reading)
                .write(true)
                .open("/dev/null");
            let null = null.expect("/dev/null is there");
            let ended = ended(leverbonnet(words).stdout(null));
            assert_eq!(ended.status, status, "{words:?}: {ended:?}");
        }
    }
}

#[test]
fn an_output_that_can_not_be_written_stops_the_rest() {
    for way in ["sheet", "sheet --words"] {
        let ended = ended(&mut shell(&format!(
            r#""$1" {way} examples/refused.job examples/missing.job >/dev/full"#
        )));
        let told: Vec<&str> = ended.told.lines().collect();
        assert_eq!((told.len(), ended.status), (2, 1), "{ended:?}");
        assert!(told[0].starts_with("leverbonnet: examples/refused.job: refused"));
        assert!(told[1].starts_with("leverbonnet: standard output can not be written"));
    }
}

#[test]
fn messages_that_can_not_be_told_change_nothing() {
    for direction in ["2>&-", "2>/dev/full", "2</dev/null"] {
        for (way, stored) in [("sheet", "refused.txt"), ("sheet --words", "refused.words")] {
            let refused = ended(&mut shell(&format!(
                r#""$1" {way} examples/refused.job {direction}"#
            )));
            let stored = example_bytes(stored);
            assert_eq!((refused.out.as_bytes(), refused.status), (&*stored, 2));
        }
        let bad = ended(&mut shell(&format!(r#""$1" frob {direction}"#)));
        assert_eq!(bad.status, 1);
    }
}
