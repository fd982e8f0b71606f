//! The words after a command's name, sorted into options, each with its word if it
//! takes one, and the rest.

use std::collections::VecDeque;
use std::ffi::OsString;
use std::os::unix::ffi::OsStrExt;

use crate::complaint::{shown, Complaint};

/// An option of a command.
#[derive(Clone, Copy, Debug, PartialEq, Eq)]
pub(crate) struct Known {
    pub name: &'static str,
    /// What its word stands for, if it takes one.
    pub takes: Option<&'static str>,
}

pub(crate) struct Given {
    /// Each with the word behind it that it takes.
    options: Vec<(OsString, Option<OsString>)>,
    rest: VecDeque<OsString>,
}

impl Given {
    /// An option begins with `-` and may stand anywhere; `--` ends the options, and
    /// `-` alone is none. One that takes a word has the next, if that is no option.
    pub fn sorted(words: impl Iterator<Item = OsString>, known: &[Known]) -> Self {
        let mut given = Given {
            options: Vec::new(),
            rest: VecDeque::new(),
        };
        let mut words = words.peekable();
        let mut ended = false;
        while let Some(word) = words.next() {
            if ended || !is_option(&word) {
                given.rest.push_back(word);
            } else if word == "--" {
                ended = true;
            } else {
                let mut known = known.iter();
                let takes_one = known.any(|option| word == option.name && option.takes.is_some());
                let taken = words.next_if(|next| takes_one && !is_option(next));
                given.options.push((word, taken));
            }
        }
        given
    }

    pub fn has(&self, option: &str) -> bool {
        self.options.iter().any(|(given, _)| given == option)
    }

    /// The word of an option that may be given once: none if it is not given. `usage`
    /// says how all words go.
    pub fn word_of(&mut self, option: &str, usage: &str) -> Result<Option<OsString>, Complaint> {
        let mut all = self.options.iter_mut().filter(|(given, _)| given == option);
        match (all.next(), all.next()) {
            (None, _) => Ok(None),
            (Some(_), Some(_)) => Err(format!("{option} can be given once.").into()),
            (Some((_, word)), None) => {
                let missing = || missing(&format!("the word behind {option}"), usage);
                word.take().ok_or_else(missing).map(Some)
            }
        }
    }

    /// The first option that is none of these.
    pub fn unknown_option(&self, known: &[Known]) -> Option<&OsString> {
        let is_known = |given: &OsString| known.iter().any(|option| given == option.name);
        let mut options = self.options.iter().map(|(given, _)| given);
        options.find(|given| !is_known(given))
    }

    pub fn next(&mut self) -> Option<OsString> {
        self.rest.pop_front()
    }

    /// The next word, which has to be there: `usage` says how all of them go.
    pub fn needed(&mut self, name: &str, usage: &str) -> Result<OsString, Complaint> {
        self.next().ok_or_else(|| missing(name, usage))
    }

    /// Complains if a word is left.
    pub fn ended(&mut self, usage: &str) -> Result<(), Complaint> {
        match self.next() {
            Some(spare) => {
                let spare = shown(&spare);
                Err(format!("{spare} is one word too many: call it as leverbonnet {usage}.").into())
            }
            None => Ok(()),
        }
    }
}

fn is_option(word: &OsString) -> bool {
    word != "-" && word.as_bytes().starts_with(b"-")
}

fn missing(name: &str, usage: &str) -> Complaint {
    format!("{name} is missing: call it as leverbonnet {usage}.").into()
}

#[cfg(test)]
mod tests {
    use super::*;

    const SVG: Known = Known {
        name: "--svg",
        takes: None,
    };

    const FIGURE: Known = Known {
        name: "--figure",
        takes: Some("FIGURE"),
    };

    fn sorted(words: &[&str]) -> Given {
        Given::sorted(words.iter().map(OsString::from), &[SVG, FIGURE])
    }

    fn figure(words: &[&str]) -> Result<Option<OsString>, Complaint> {
        sorted(words).word_of(FIGURE.name, "usage")
    }

    #[test]
    fn options_stand_anywhere() {
        let mut given = sorted(&["a", "--svg", "b"]);
        assert!(given.has("--svg"));
        assert_eq!(given.next(), Some("a".into()));
        assert_eq!(given.next(), Some("b".into()));
    }

    #[test]
    fn after_two_dashes_nothing_is_an_option() {
        let mut given = sorted(&["--", "--svg", "--"]);
        assert!(!given.has("--svg"));
        assert_eq!(given.next(), Some("--svg".into()));
        assert_eq!(given.next(), Some("--".into()));
    }

    #[test]
    fn one_dash_is_no_option() {
        assert_eq!(sorted(&["-"]).next(), Some("-".into()));
    }

    #[test]
    fn the_first_unknown_option_is_named() {
        let given = sorted(&["--svg", "--big", "--small"]);
        assert_eq!(given.unknown_option(&[SVG]), Some(&"--big".into()));
    }

    #[test]
    fn an_option_has_the_word_behind_it_wherever_it_stands() {
        for words in [
            &["--figure", "f", "a"][..],
            &["a", "--figure", "f"],
            &["--svg", "a", "--figure", "f"],
            &["--figure", "f", "--", "a"],
        ] {
            assert_eq!(figure(words), Ok(Some("f".into())), "{words:?}");
            let mut given = sorted(words);
            assert_eq!(given.next(), Some("a".into()), "{words:?}");
            assert_eq!(given.next(), None, "{words:?}");
        }
        assert_eq!(figure(&["--figure", "-"]), Ok(Some("-".into())));
    }

    #[test]
    fn an_option_that_is_not_given_has_no_word() {
        for words in [&[][..], &["f"], &["--", "--figure", "f"], &["--svg", "f"]] {
            assert_eq!(figure(words), Ok(None), "{words:?}");
        }
    }

    #[test]
    fn an_option_that_takes_no_word_leaves_it() {
        assert_eq!(sorted(&["--svg", "f"]).next(), Some("f".into()));
    }

    #[test]
    fn an_option_without_its_word_is_a_complaint() {
        for words in [
            &["a", "--figure"][..],
            &["--figure", "--svg", "a"],
            &["--figure", "--", "a"],
        ] {
            assert_eq!(
                figure(words).unwrap_err().sentence(),
                "the word behind --figure is missing: call it as leverbonnet usage.",
                "{words:?}"
            );
        }
        assert!(sorted(&["--figure", "--svg"]).has("--svg"));
    }

    #[test]
    fn an_option_with_a_word_is_given_once() {
        for words in [
            &["--figure", "f", "--figure", "f"][..],
            &["--figure", "--figure"],
        ] {
            let complaint = figure(words).unwrap_err();
            assert_eq!(complaint.sentence(), "--figure can be given once.");
        }
    }

    #[test]
    fn a_word_left_over_is_a_complaint() {
        assert!(sorted(&["a"]).ended("usage").is_err());
        assert!(sorted(&["--svg"]).ended("usage").is_ok());
    }
}
