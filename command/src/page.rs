//! What one source comes to: the text of its job, or why there is none.

use std::io;

use leverbonnet::{Error, Refusal};
use words::{standard, Source, Status};

use crate::{calls, input, trouble};

/// Prints what comes of the figure, which all of it goes by where one is asked for. It
/// has to be had and found good before any job is read; else a page that says why not is
/// all that is printed.
pub fn by_figure(
    figure: &Option<Source>,
    in_words: bool,
    printed: impl FnOnce(Option<&[u8]>) -> io::Result<Status>,
) -> Status {
    let printed = match figure {
        None => printed(None),
        Some(source) => {
            let mut page = Page::of(source, in_words);
            match page.figure() {
                Some(figure) => printed(Some(&figure)),
                None => page.printed(),
            }
        }
    };
    printed.unwrap_or_else(|trouble| standard::unwritten(&trouble))
}

pub struct Page<'a> {
    source: &'a Source,
    in_words: bool,
    text: Vec<u8>,
    /// For standard error, if the file was refused or could not be had.
    sentence: Option<String>,
    status: Status,
}

impl<'a> Page<'a> {
    pub fn of(source: &'a Source, in_words: bool) -> Self {
        Page {
            source,
            in_words,
            text: Vec::new(),
            sentence: None,
            status: Status::Done,
        }
    }

    pub fn put_heading(&mut self) {
        self.text.extend_from_slice(b"==> ");
        self.text.extend_from_slice(input::name(self.source));
        self.text.extend_from_slice(b" <==\n");
    }

    /// The text of the job, or why there is none.
    pub fn put_job(&mut self, text: impl FnOnce(&[u8]) -> Result<Vec<u8>, Error>) {
        if let Some(job) = self.read("job") {
            match text(&job) {
                Ok(text) => self.text.extend(text),
                Err(error) => self.put_error(error, |refusal| trouble::in_job(refusal, &job)),
            }
        }
    }

    /// The figure, if it can be had and is in order; else the page says why not.
    fn figure(&mut self) -> Option<Vec<u8>> {
        let figure = self.read("figure")?;
        match calls::judged(&figure) {
            Ok(()) => Some(figure),
            Err(error) => {
                self.put_error(error, |refusal| trouble::in_figure(refusal, &figure));
                None
            }
        }
    }

    fn read(&mut self, what: &str) -> Option<Vec<u8>> {
        match input::read(self.source, what) {
            Ok(bytes) => Some(bytes),
            Err(trouble) => {
                let (name, reason) = (input::shown(self.source), standard::reason(&trouble));
                self.end(Status::Failed, format!("{name} can not be read: {reason}."));
                None
            }
        }
    }

    /// What is wrong with a refused file and where, is said as the end of a sentence.
    fn put_error(&mut self, error: Error, in_file: impl FnOnce(&Refusal) -> String) {
        let name = input::shown(self.source);
        match error {
            Error::Refused(refusal) => {
                let what = in_file(&refusal);
                let line = if self.in_words {
                    format!("Refused: {what}\n")
                } else {
                    trouble::refused(&refusal)
                };
                self.text.extend(line.into_bytes());
                self.end(Status::Refused, format!("{name}: refused, {what}"));
            }
            Error::Unreached(why) => {
                let sentence = format!("{name}: {}", trouble::unreached(&why));
                self.end(Status::Failed, sentence);
            }
        }
    }

    fn end(&mut self, status: Status, sentence: String) {
        self.status = status;
        self.sentence = Some(sentence);
    }

    /// Writes it, and tells its sentence even where that fails.
    pub fn printed(self) -> io::Result<Status> {
        let written = standard::write(&self.text);
        if let Some(sentence) = self.sentence {
            standard::tell(&sentence);
        }
        written.and(Ok(self.status))
    }
}
