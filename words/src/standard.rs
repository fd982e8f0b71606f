//! The standard descriptors. A text that was not written whole is an error
//! here, and a message that can't be told is lost without one.

mod closed;

use std::fs::File;
use std::io::{self, Write};
use std::os::unix::io::{AsFd, BorrowedFd};

use crate::status::Status;

/// Standard input, unless it was closed when the program was started.
pub fn input() -> io::Result<File> {
    opened(closed::input(), io::stdin().as_fd())
}

/// Writes the whole text to standard output.
pub fn write(text: &[u8]) -> io::Result<()> {
    output()?.write_all(text)
}

/// Writes the whole text to standard output, or tells why it can't be written.
pub fn print(text: &[u8]) -> Status {
    match write(text) {
        Ok(()) => Status::Done,
        Err(trouble) => unwritten(&trouble),
    }
}

/// Tells why standard output was not written.
pub fn unwritten(trouble: &io::Error) -> Status {
    tell(&format!(
        "standard output can not be written: {}.",
        reason(trouble)
    ));
    Status::Failed
}

/// Tells a sentence on standard error, under the command's name.
pub fn tell(sentence: &str) {
    note(&format!("leverbonnet: {sentence}"));
}

/// Writes a line on standard error.
pub fn note(line: &str) {
    // Where standard error can't be written there is nowhere left to say so.
    let _ = io::stderr().write_all(format!("{line}\n").as_bytes());
}

/// The system's reason in its own words, without its number.
pub fn reason(trouble: &io::Error) -> String {
    let text = trouble.to_string();
    match text.find(" (os error ") {
        Some(end) => text[..end].into(),
        None => text,
    }
}

/// Standard output as the system has it: `io::stdout` would take a descriptor
/// that can't be written for one that was written.
pub(crate) fn output() -> io::Result<File> {
    opened(closed::output(), io::stdout().as_fd())
}

fn opened(closed: bool, descriptor: BorrowedFd) -> io::Result<File> {
    if closed {
        return Err(io::Error::new(io::ErrorKind::Other, "It is closed"));
    }
    Ok(descriptor.try_clone_to_owned()?.into())
}
