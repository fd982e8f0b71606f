//! Where a job or a figure is read from, and its bytes.

use std::fs::File;
use std::io::{self, Read};
use std::os::raw::c_int;
use std::os::unix::ffi::OsStrExt;
use std::os::unix::io::AsRawFd;

use words::{standard, Source};

/// As much as is read of a file. Nothing past the first 17,274 bytes of a job or the
/// first 136 of a figure changes an answer, so that an endless input has one too.
const MOST: u64 = 65_536;

extern "C" {
    fn isatty(descriptor: c_int) -> c_int;
}

/// The name of a source, its bytes as they were given.
pub fn name(source: &Source) -> &[u8] {
    match source {
        Source::StandardInput => b"standard input",
        Source::File(path) => path.as_os_str().as_bytes(),
    }
}

/// The name of a source in a sentence.
pub fn shown(source: &Source) -> String {
    match source {
        Source::StandardInput => "standard input".into(),
        Source::File(path) => words::shown(path.as_os_str()),
    }
}

/// The bytes of a file, as far as they count. What it is, a job or a figure, is said
/// to whoever has to type it.
pub fn read(source: &Source, what: &str) -> io::Result<Vec<u8>> {
    let file = match source {
        Source::StandardInput => standard_input(what)?,
        Source::File(path) => File::open(path)?,
    };
    let mut bytes = Vec::new();
    file.take(MOST).read_to_end(&mut bytes)?;
    Ok(bytes)
}

fn standard_input(what: &str) -> io::Result<File> {
    let input = standard::input()?;
    if is_terminal(&input) {
        standard::tell(&format!(
            "the {what} is read from standard input, up to the end of the file."
        ));
    }
    Ok(input)
}

fn is_terminal(file: &File) -> bool {
    // SAFETY: the call only looks at a descriptor, which is open.
    unsafe { isatty(file.as_raw_fd()) == 1 }
}
