//! The program examples/runs.rs, on the jobs of the project.

mod stored;

use std::env;
use std::fs::{self, File, OpenOptions};
use std::path::{Path, PathBuf};
use std::process::{Command, Output};

/// Cargo builds it for the tests, into a folder beside that of this one.
fn program() -> Command {
    let own = env::current_exe().expect("this test has a path");
    let folder = own.parent().and_then(Path::parent);
    Command::new(folder.expect("it lies in deps/").join("examples/runs"))
}

fn example(name: &str) -> PathBuf {
    stored::examples().join(name)
}

fn ended(command: &mut Command) -> Output {
    command.output().expect("the example is built")
}

fn assert_ended(output: &Output, status: i32, out: &str, told: &str) {
    assert_eq!(String::from_utf8_lossy(&output.stderr), told);
    assert_eq!(String::from_utf8_lossy(&output.stdout), out);
    assert_eq!(output.status.code(), Some(status));
}

#[test]
fn a_job_that_is_read_is_printed_in_words() {
    let texts = stored::texts().into_iter();
    for text in texts.filter(|text| text != &example("refused.txt")) {
        let job = text.with_extension("job");
        let words = fs::read_to_string(text.with_extension("words")).expect("it is there");
        assert_ended(&ended(program().arg(&job)), 0, &words, "");
        let input = File::open(&job).expect("it is there");
        assert_ended(&ended(program().stdin(input)), 0, &words, "");
    }
}

#[test]
fn a_refusal_is_told_with_status_2() {
    let told = "refusal 5 at byte 167: a field is out of its range\n";
    assert_ended(&ended(program().arg(example("refused.job"))), 2, "", told);
}

#[test]
fn other_trouble_is_told_with_status_1() {
    let missing = "No such file or directory (os error 2)\n";
    assert_ended(
        &ended(program().arg(example("missing.job"))),
        1,
        "",
        missing,
    );
    let two = "name one file, or none\n";
    assert_ended(&ended(program().args(["a", "b"])), 1, "", two);
    let full = OpenOptions::new().write(true).open("/dev/full");
    let full = full.expect("/dev/full is there");
    let told = "No space left on device (os error 28)\n";
    assert_ended(
        &ended(program().arg(example("worked.job")).stdout(full)),
        1,
        "",
        told,
    );
}
