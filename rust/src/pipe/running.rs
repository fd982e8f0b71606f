//! The program `calls` while it runs. It never stays behind: whoever lets go of it
//! waits for its end.

use std::io::{self, BufReader, Read, Write};
use std::process::{Child, ChildStdout, ExitStatus, Stdio};
use std::thread;
use std::time::{Duration, Instant};

use super::command::CommandLine;

/// How long it has to end by itself, and how often it is looked at meanwhile.
const PATIENCE: Duration = Duration::from_secs(2);
const BETWEEN_LOOKS: Duration = Duration::from_millis(2);

pub struct Running {
    child: Child,
    output: BufReader<ChildStdout>,
}

impl Running {
    pub fn start(command: &CommandLine) -> Result<Self, String> {
        let mut child = command
            .command()
            .stdin(Stdio::piped())
            .stdout(Stdio::piped())
            .spawn()
            .map_err(|trouble| format!("{command} could not be started: {trouble}"))?;
        let output = child.stdout.take().expect("standard output is piped");
        Ok(Running {
            child,
            output: BufReader::new(output),
        })
    }

    /// It may end before it has read all; what it then does not write tells.
    pub fn write(&mut self, requests: &[u8]) {
        let input = self.child.stdin.as_mut();
        let _ = input.expect("open until its end").write_all(requests);
    }

    /// Reads so many bytes, fewer only if it writes no more.
    pub fn read(&mut self, length: usize) -> Vec<u8> {
        let mut bytes = Vec::with_capacity(length);
        let _ = (&mut self.output)
            .take(length as u64)
            .read_to_end(&mut bytes);
        bytes
    }

    /// Ends its input and reads what it still writes.
    pub fn rest(&mut self) -> Vec<u8> {
        drop(self.child.stdin.take());
        let mut bytes = Vec::new();
        let _ = self.output.read_to_end(&mut bytes);
        bytes
    }

    /// How it ended. At the end of its input it has to, and is made to if it
    /// does not.
    pub fn ended(&mut self) -> io::Result<ExitStatus> {
        drop(self.child.stdin.take());
        let started = Instant::now();
        while started.elapsed() < PATIENCE {
            if let Some(status) = self.child.try_wait()? {
                return Ok(status);
            }
            thread::sleep(BETWEEN_LOOKS);
        }
        self.child.kill()?;
        self.child.wait()
    }
}

impl Drop for Running {
    fn drop(&mut self) {
        let _ = self.ended();
    }
}
