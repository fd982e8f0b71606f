//! Where jobs and figures are read from.

use std::ffi::OsString;
use std::path::PathBuf;

use crate::complaint::Complaint;
use crate::given::{Given, Known};

/// The option that names a figure.
pub(crate) const FIGURE: Known = Known {
    name: "--figure",
    takes: Some("FIGURE"),
};

/// Where a job or a figure is read from.
#[derive(Debug, PartialEq, Eq)]
pub enum Source {
    StandardInput,
    File(PathBuf),
}

impl From<OsString> for Source {
    fn from(word: OsString) -> Self {
        if word == "-" {
            Source::StandardInput
        } else {
            Source::File(word.into())
        }
    }
}

/// The figure, if one is named: `usage` says how all words go.
pub(crate) fn figure(given: &mut Given, usage: &str) -> Result<Option<Source>, Complaint> {
    Ok(given.word_of(FIGURE.name, usage)?.map(Source::from))
}

/// Complains if more than one of them is standard input.
pub(crate) fn read_once<'a>(sources: impl Iterator<Item = &'a Source>) -> Result<(), Complaint> {
    let inputs = sources.filter(|one| **one == Source::StandardInput);
    if inputs.count() > 1 {
        return Err("standard input can be read once: give - at most once.".into());
    }
    Ok(())
}
