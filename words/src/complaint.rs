//! One sentence about words that ask for nothing.

use std::ffi::OsStr;

use crate::standard;
use crate::status::Status;

#[derive(Debug, PartialEq, Eq)]
pub(crate) struct Complaint(String);

impl Complaint {
    pub fn told(&self) -> Status {
        standard::tell(&self.0);
        Status::Failed
    }

    #[cfg(test)]
    pub fn sentence(&self) -> &str {
        &self.0
    }
}

impl From<String> for Complaint {
    fn from(sentence: String) -> Self {
        Complaint(sentence)
    }
}

impl From<&str> for Complaint {
    fn from(sentence: &str) -> Self {
        Complaint(sentence.into())
    }
}

/// A word as a sentence can hold it: on one line, whatever its bytes, and in
/// quotes where it could not be told from the sentence.
pub fn shown(word: &OsStr) -> String {
    let text: String = word.to_string_lossy().chars().map(on_one_line).collect();
    if text.is_empty() || text.contains(char::is_whitespace) {
        format!("'{text}'")
    } else {
        text
    }
}

fn on_one_line(character: char) -> String {
    if character.is_control() {
        character.escape_default().collect()
    } else {
        character.into()
    }
}

#[cfg(test)]
mod tests {
    use super::*;
    use std::os::unix::ffi::OsStrExt;

    #[test]
    fn a_plain_word_is_shown_as_it_is() {
        assert_eq!(shown(OsStr::new("a/b.job")), "a/b.job");
    }

    #[test]
    fn a_word_with_a_space_and_an_empty_one_are_quoted() {
        assert_eq!(shown(OsStr::new("a b")), "'a b'");
        assert_eq!(shown(OsStr::new("")), "''");
    }

    #[test]
    fn a_line_break_or_a_bad_byte_keeps_the_sentence_on_one_line() {
        assert_eq!(shown(OsStr::new("a\nb")), "a\\nb");
        assert_eq!(shown(OsStr::from_bytes(b"a\xffb")), "a\u{fffd}b");
    }
}
