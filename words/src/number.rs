//! Whole numbers among the words.

use std::ffi::OsStr;

use crate::complaint::{shown, Complaint};

/// The number that a call takes under that name.
pub(crate) fn number(name: &str, word: &OsStr) -> Result<u16, Complaint> {
    let number = whole(word.to_str().unwrap_or(""));
    let number = number.and_then(|number| u16::try_from(number).ok());
    number.ok_or_else(|| {
        let (word, greatest) = (shown(word), u16::MAX);
        format!("the {name} {word} is no whole number up to {greatest}.").into()
    })
}

/// The value of digits; the greatest u64 stands for all that are greater.
pub(crate) fn whole(text: &str) -> Option<u64> {
    is_digits(text).then(|| text.parse().unwrap_or(u64::MAX))
}

pub(crate) fn is_digits(text: &str) -> bool {
    !text.is_empty() && text.bytes().all(|byte| byte.is_ascii_digit())
}

#[cfg(test)]
mod tests {
    use super::*;

    fn run(word: &str) -> Result<u16, String> {
        number("run", OsStr::new(word)).map_err(|complaint| complaint.sentence().into())
    }

    #[test]
    fn a_number_is_a_bare_whole_number() {
        for (word, value) in [("0", 0), ("7", 7), ("007", 7), ("65535", 65_535)] {
            assert_eq!(run(word), Ok(value));
        }
    }

    #[test]
    fn any_other_word_is_told_what_is_wanted() {
        for word in [
            "",
            "x",
            "-1",
            "+1",
            "7.0",
            " 7",
            "1e2",
            "٧",
            "65536",
            "99999999999999999999",
        ] {
            let sentence = run(word).unwrap_err();
            assert!(
                sentence.ends_with(" is no whole number up to 65535."),
                "{sentence}"
            );
        }
        assert_eq!(
            run("12in").unwrap_err(),
            "the run 12in is no whole number up to 65535."
        );
    }
}
