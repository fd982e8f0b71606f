//! Programs run to their end, or to the end of the test's patience.

use std::ffi::OsStr;
use std::io::Write;
use std::process::{Child, Command, Stdio};

use crate::folder::project;

/// Seconds after which a program counts as hanging.
const PATIENCE: &str = "300";

/// The program that is tested.
pub const PROGRAM: &str = env!("CARGO_BIN_EXE_leverbonnet");

/// How a program ended.
#[derive(Debug, PartialEq, Eq)]
pub struct Ended {
    pub status: i32,
    pub out: String,
    pub told: String,
}

impl Ended {
    /// Asserts that nothing was printed, and that one sentence was told, with
    /// these words in it.
    pub fn assert_one_sentence(&self, status: i32, words: &str) {
        assert_eq!(self.status, status, "{self:?}");
        assert_eq!(self.out, "", "{self:?}");
        self.assert_told_one(words);
    }

    /// Asserts that one sentence was told, with these words in it.
    pub fn assert_told_one(&self, words: &str) {
        assert_eq!(self.told.lines().count(), 1, "{self:?}");
        assert!(self.told.starts_with("leverbonnet: "), "{self:?}");
        assert!(self.told.ends_with(".\n"), "{self:?}");
        assert!(self.told.contains(words), "{words}: {self:?}");
    }
}

/// A program that is killed with all it started if it does not end. It runs in
/// the project's folder, with nothing on its standard input, and what it writes
/// is collected, as far as a test does not direct it elsewhere.
pub fn program(path: impl AsRef<OsStr>) -> Command {
    let mut command = Command::new("timeout");
    command.args(["--kill-after=5", PATIENCE]).arg(path);
    command.current_dir(project()).stdin(Stdio::null());
    command.stdout(Stdio::piped()).stderr(Stdio::piped());
    command
}

/// The command with these words.
pub fn leverbonnet<W: AsRef<OsStr>>(words: &[W]) -> Command {
    let mut command = program(PROGRAM);
    command.args(words).env_remove("LEVERBONNET_PROJECT");
    command
}

/// A line of the shell in which "$1" is the command.
pub fn shell(line: &str) -> Command {
    let mut command = program("sh");
    command.args(["-c", line, "sh", PROGRAM]);
    command
}

pub fn ended(command: &mut Command) -> Ended {
    started(command).ended()
}

/// How the command ends with this on its standard input.
pub fn ended_with_input(command: &mut Command, input: &[u8]) -> Ended {
    let mut running = started(command.stdin(Stdio::piped()));
    let mut pipe = running.0.stdin.take().expect("it is piped");
    // A program may end before it has read everything.
    let _ = pipe.write_all(input);
    drop(pipe);
    running.ended()
}

pub struct Running(Child);

pub fn started(command: &mut Command) -> Running {
    Running(command.spawn().expect("timeout can be started"))
}

impl Running {
    pub fn ended(self) -> Ended {
        let output = self.0.wait_with_output().expect("it can be waited for");
        Ended {
            status: output.status.code().expect("it was not killed"),
            out: String::from_utf8_lossy(&output.stdout).into_owned(),
            told: String::from_utf8_lossy(&output.stderr).into_owned(),
        }
    }
}
