//! `sheet` from pipes, devices and inputs that can't be read. Trouble with an
//! input is never a refusal: it is not the tester's file that is bad.

use std::fs::{File, OpenOptions};
use std::io::Write;
use std::os::raw::{c_char, c_int};
use std::os::unix::io::AsRawFd;
use std::process::Command;

use crate::folder::{example, example_bytes, Folder};
use crate::run::{ended, ended_with_input, leverbonnet, shell, started, Ended};

fn worked() -> String {
    String::from_utf8(example_bytes("worked.txt")).expect("sheets are text")
}

fn sheet_of_file(words: &[&str], name: &str) -> Ended {
    let input = File::open(example(name)).expect("the example is there");
    ended(leverbonnet(&["sheet"]).args(words).stdin(input))
}

#[test]
fn standard_input_is_read_without_a_file_by_a_dash_and_as_a_device() {
    for words in [&[][..], &["-"], &["/dev/stdin"], &["--", "-"]] {
        let from_file = sheet_of_file(words, "worked.job");
        assert_eq!(
            (from_file.out, from_file.status),
            (worked(), 0),
            "{words:?}"
        );
        let job = example_bytes("worked.job");
        let from_pipe = ended_with_input(leverbonnet(&["sheet"]).args(words), &job);
        assert_eq!(
            (from_pipe.out, from_pipe.status),
            (worked(), 0),
            "{words:?}"
        );
    }
}

#[test]
fn a_job_refused_on_standard_input_is_named_so() {
    let refused = sheet_of_file(&[], "refused.job");
    assert_eq!(
        (refused.out.as_str(), refused.status),
        ("REFUSED 5 167\n", 2)
    );
    refused.assert_told_one(
        "standard input: refused, the stack temperature of point 3 of the 1st run is -401",
    );
}

#[test]
fn standard_input_among_files_has_a_heading() {
    let printed = sheet_of_file(&["-", "examples/refused.job"], "worked.job");
    let expected = format!(
        "==> standard input <==\n{}==> examples/refused.job <==\nREFUSED 5 167\n",
        worked()
    );
    assert_eq!(printed.out, expected);
}

#[test]
fn standard_input_twice_is_a_complaint() {
    sheet_of_file(&["-", "-"], "worked.job").assert_one_sentence(1, "at most once");
}

#[test]
fn an_empty_input_is_a_job_that_ends_early() {
    let refused = ended(&mut leverbonnet(&["sheet"]));
    assert_eq!((refused.out.as_str(), refused.status), ("REFUSED 1 0\n", 2));
}

/// Asserts that a job asked for by these words of the shell is told so, plain and
/// in words.
fn assert_unread(words: &str, sentence: &str) {
    for way in ["sheet", "sheet --words"] {
        let line = format!(r#""$1" {way} {words}"#);
        ended(&mut shell(&line)).assert_one_sentence(1, sentence);
    }
}

#[test]
fn a_folder_is_no_job() {
    assert_unread("examples", "examples can not be read: Is a directory.");
    assert_unread(
        "<examples",
        "standard input can not be read: Is a directory.",
    );
}

#[test]
fn a_read_that_fails_is_no_refusal() {
    assert_unread(
        "/proc/self/mem",
        "/proc/self/mem can not be read: Input/output error.",
    );
    assert_unread(
        "</proc/self/mem",
        "standard input can not be read: Input/output error.",
    );
}

#[test]
fn a_closed_input_is_no_empty_job() {
    assert_unread("<&-", "standard input can not be read: It is closed.");
}

#[test]
fn an_input_open_for_writing_only_is_no_empty_job() {
    assert_unread(
        "0>/dev/null",
        "standard input can not be read: Bad file descriptor.",
    );
}

#[test]
fn a_closed_input_does_not_matter_where_a_file_is_read() {
    let printed = ended(&mut shell(r#""$1" sheet examples/worked.job <&-"#));
    assert_eq!((printed.out, printed.status), (worked(), 0));
}

#[test]
fn a_named_pipe_is_read() {
    let folder = Folder::new();
    let pipe = folder.join("job");
    let made = Command::new("mkfifo").arg(&pipe).status();
    assert!(made.expect("mkfifo can be started").success());
    let mut writing = shell(r#"cat examples/worked.job >"$2""#);
    let writer = started(writing.arg(&pipe));
    let printed = ended(leverbonnet(&["sheet"]).arg(&pipe));
    assert_eq!((printed.out, printed.status), (worked(), 0));
    assert_eq!(writer.ended().status, 0);
}

#[test]
fn an_endless_input_has_an_end() {
    let zeros = ended(&mut leverbonnet(&["sheet", "/dev/zero"]));
    assert_eq!((zeros.out.as_str(), zeros.status), ("REFUSED 2 0\n", 2));
}

#[test]
fn endless_bytes_behind_a_job_are_left_over() {
    let mut command = shell(r#"cat examples/worked.job /dev/zero | "$1" sheet"#);
    let length = example_bytes("worked.job").len();
    let printed = ended(&mut command);
    assert_eq!(printed.out, format!("REFUSED 8 {length}\n"));
    assert_eq!(printed.status, 2);
}

extern "C" {
    fn unlockpt(terminal: c_int) -> c_int;
    fn ptsname_r(terminal: c_int, name: *mut c_char, length: usize) -> c_int;
}

/// What a person types to end a file.
pub const END_OF_FILE: &[u8] = &[4];

/// A new terminal: the end that a person types at, and the program's end.
pub fn terminal() -> (File, File) {
    let open = |path: &str| OpenOptions::new().read(true).write(true).open(path);
    let typed = open("/dev/ptmx").expect("a terminal can be had");
    let mut name = [0u8; 64];
    // SAFETY: the descriptor is open, and the name is written within its length.
    let made = unsafe {
        unlockpt(typed.as_raw_fd()) == 0
            && ptsname_r(typed.as_raw_fd(), name.as_mut_ptr().cast(), name.len()) == 0
    };
    assert!(made, "a terminal can be had");
    let length = name.iter().position(|&byte| byte == 0).expect("it ends");
    let path = std::str::from_utf8(&name[..length]).expect("it is a path");
    let program = open(path).expect("its other end can be opened");
    (typed, program)
}

#[test]
fn at_a_terminal_a_hint_says_what_is_waited_for() {
    let (mut typed, input) = terminal();
    typed.write_all(END_OF_FILE).expect("it can be typed at");
    let refused = ended(leverbonnet(&["sheet"]).stdin(input));
    assert_eq!(refused.status, 2);
    let hint = "leverbonnet: the job is read from standard input, up to the end of the file.";
    assert_eq!(refused.told.lines().next(), Some(hint));
}

#[test]
fn a_file_or_a_pipe_gets_no_hint() {
    assert_eq!(sheet_of_file(&[], "worked.job").told, "");
    let job = example_bytes("worked.job");
    assert_eq!(
        ended_with_input(&mut leverbonnet(&["sheet"]), &job).told,
        ""
    );
}
