//! `sheet` over files.

use std::ffi::OsStr;
use std::fs;
use std::os::unix::ffi::OsStrExt;

use crate::folder::{example, example_bytes, example_text, examples, Folder};
use crate::run::{ended, leverbonnet, Ended};

const GOOD: &str = "examples/worked.job";
const REFUSED: &str = "examples/refused.job";
const MISSING: &str = "examples/missing.job";

fn sheet(files: &[&str]) -> Ended {
    ended(leverbonnet(&["sheet"]).args(files))
}

/// Plain and in words.
fn either_way(files: &[&str]) -> [Ended; 2] {
    [
        sheet(files),
        ended(leverbonnet(&["sheet", "--words"]).args(files)),
    ]
}

#[test]
fn every_stored_sheet_is_printed_plain_and_in_words() {
    for path in examples("txt") {
        let job = path.with_extension("job");
        let refused = fs::read(&path)
            .expect("it is there")
            .starts_with(b"REFUSED");
        for (options, ending) in [(&[][..], "txt"), (&["--words"], "words")] {
            let text = fs::read_to_string(path.with_extension(ending)).expect("sheets are text");
            let printed = ended(leverbonnet(&["sheet"]).args(options).arg(&job));
            let status = if refused { 2 } else { 0 };
            assert_eq!((printed.out, printed.status), (text, status));
        }
    }
}

#[test]
fn the_longest_jobs_are_printed_as_the_independent_program_prints_them() {
    for name in ["longest.job", "longest-version-2.job"] {
        let printed = sheet(&[&format!("examples/{name}")]);
        let expected = independent::sheet(&example_bytes(name));
        assert_eq!(printed.out.into_bytes(), expected);
        assert_eq!(printed.status, 0);
    }
}

#[test]
fn a_good_job_tells_nothing() {
    for printed in either_way(&[GOOD]) {
        assert_eq!(printed.told, "");
    }
}

#[test]
fn one_file_has_no_heading() {
    assert_eq!(sheet(&[GOOD]).out, example_text("worked.txt"));
}

#[test]
fn of_several_files_each_has_its_heading() {
    let printed = either_way(&[GOOD, REFUSED, MISSING, "examples/several-runs.job"]);
    for (printed, ending) in printed.into_iter().zip(["txt", "words"]) {
        let stored = |name: &str| example_text(&format!("{name}.{ending}"));
        let expected = format!(
            "==> {GOOD} <==\n{}==> {REFUSED} <==\n{}==> {MISSING} <==\n\
             ==> examples/several-runs.job <==\n{}",
            stored("worked"),
            stored("refused"),
            stored("several-runs")
        );
        assert_eq!((printed.out, printed.status), (expected, 1));
    }
}

#[test]
fn a_heading_has_the_bytes_of_the_name() {
    let folder = Folder::new();
    let name = OsStr::from_bytes(b"a\xff b.job");
    fs::copy(example("worked.job"), folder.join(name)).expect("any name can be given");
    let mut command = leverbonnet(&["sheet"]);
    let out = command
        .current_dir(&*folder)
        .args([name, name])
        .output()
        .expect("timeout can be started")
        .stdout;
    assert!(out.starts_with(b"==> a\xff b.job <==\nRUN 7 ACCEPTED\n"));
}

#[test]
fn the_worst_of_all_files_is_the_status() {
    for (files, status) in [
        (&[GOOD][..], 0),
        (&[REFUSED], 2),
        (&[MISSING], 1),
        (&[GOOD, GOOD], 0),
        (&[GOOD, REFUSED], 2),
        (&[REFUSED, GOOD], 2),
        (&[GOOD, MISSING], 1),
        (&[MISSING, GOOD], 1),
        (&[REFUSED, MISSING], 1),
        (&[MISSING, REFUSED], 1),
        (&[GOOD, REFUSED, MISSING], 1),
        (&[MISSING, REFUSED, GOOD], 1),
        (&[REFUSED, MISSING, GOOD], 1),
    ] {
        for printed in either_way(files) {
            assert_eq!(printed.status, status, "{files:?}");
        }
    }
}

#[test]
fn a_refused_file_is_named_with_the_field() {
    for printed in either_way(&[REFUSED]) {
        assert_eq!(
            printed.told,
            "leverbonnet: examples/refused.job: refused, the stack temperature of point 3 of the \
             1st run is -401 and not in its range, -400 to 20,000 in units of 0.1 F (5 at byte 167).\n"
        );
    }
}

#[test]
fn a_missing_file_is_named_with_the_reason() {
    for printed in either_way(&[MISSING]) {
        printed.assert_one_sentence(
            1,
            "examples/missing.job can not be read: No such file or directory.",
        );
    }
}

#[test]
fn each_refused_or_missing_file_gets_one_sentence() {
    for printed in either_way(&[REFUSED, GOOD, MISSING, REFUSED]) {
        let told = printed.told;
        let named: Vec<bool> = told.lines().map(|line| line.contains(REFUSED)).collect();
        assert_eq!(named, [true, false, true], "{told}");
    }
}

#[test]
fn a_name_with_a_line_break_keeps_its_sentence_on_one_line() {
    for printed in either_way(&["no\nfile"]) {
        printed.assert_one_sentence(1, "no\\nfile can not be read");
    }
}

#[test]
fn a_file_that_begins_with_a_dash_is_read_after_two() {
    let folder = Folder::new();
    fs::copy(example("worked.job"), folder.join("--help")).expect("any name can be given");
    let mut command = leverbonnet(&["sheet", "--", "--help"]);
    let printed = ended(command.current_dir(&*folder));
    assert_eq!(printed.out, example_text("worked.txt"));
}
