//! sheet [--words] [--figure FIGURE] [FILE..]

use crate::command::{Asked, Command};
use crate::complaint::Complaint;
use crate::given::{Given, Known};
use crate::source::{self, Source, FIGURE};
use crate::Work;

const USAGE: &str = "sheet [--words] [--figure FIGURE] [FILE..]";

const WORDS: Known = Known {
    name: "--words",
    takes: None,
};

pub(crate) const COMMAND: Command = Command {
    name: "sheet",
    usage: &[[USAGE, "the sheets of each job"]],
    about: "\
No FILE, or -, is standard input. With more than one FILE a line ==> NAME <==
stands before each, and one that is refused or can't be read does not stop the
rest. A refused job prints REFUSED, its number and its place. A FILE whose name
begins with - is given as ./-.. or after --.

--words prints each job for a person: a line by its name and in its unit, a
finding as a sentence, and a refused job as a sentence that names the field.

--figure reads the file FIGURE, an agency's steps of figure 1-1. For every job
its number of points then stands in place of the house rule's 24 and 25 of rule
9. It is judged before any job is read: one that is refused prints REFUSED, 14
and its place, and no sheet. A FIGURE of - is standard input.
",
    options: &[WORDS, FIGURE],
    read,
};

/// The jobs whose sheets are asked for.
#[derive(Debug, PartialEq, Eq)]
pub struct Sheet {
    pub sources: Vec<Source>,
    /// The figure that all of them go by.
    pub figure: Option<Source>,
    /// For a person in place of the plain sheet.
    pub in_words: bool,
}

fn read(mut given: Given) -> Result<Asked, Complaint> {
    let in_words = given.has(WORDS.name);
    let figure = source::figure(&mut given, USAGE)?;
    let words = std::iter::from_fn(|| given.next());
    let mut sources: Vec<Source> = words.map(Source::from).collect();
    if sources.is_empty() && figure == Some(Source::StandardInput) {
        return Err("standard input is the figure: name the FILE of the job.".into());
    }
    source::read_once(sources.iter().chain(&figure))?;
    if sources.is_empty() {
        sources.push(Source::StandardInput);
    }
    Ok(Asked::Work(Work::Sheet(Sheet {
        sources,
        figure,
        in_words,
    })))
}

#[cfg(test)]
mod tests {
    use std::ffi::OsString;

    use super::*;
    use crate::command::asked;

    fn words(words: &[&str]) -> Result<Asked, Complaint> {
        asked(words.iter().map(OsString::from).collect())
    }

    fn sheet(given: &[&str]) -> Sheet {
        match words(given) {
            Ok(Asked::Work(Work::Sheet(sheet))) => sheet,
            other => panic!("{given:?}: {other:?}"),
        }
    }

    fn complaint(given: &[&str]) -> String {
        words(given).unwrap_err().sentence().into()
    }

    fn sources(given: &[&str]) -> Vec<Source> {
        sheet(given).sources
    }

    #[test]
    fn no_file_is_standard_input() {
        assert_eq!(sources(&["sheet"]), [Source::StandardInput]);
    }

    #[test]
    fn files_keep_their_order() {
        assert_eq!(
            sources(&["sheet", "b", "-", "a"]),
            [
                Source::File("b".into()),
                Source::StandardInput,
                Source::File("a".into())
            ]
        );
    }

    #[test]
    fn after_two_dashes_a_file_may_begin_with_one() {
        assert_eq!(
            sources(&["sheet", "--", "--help"]),
            [Source::File("--help".into())]
        );
    }

    #[test]
    fn words_may_be_asked_for_anywhere_but_after_two_dashes() {
        for given in [
            &["sheet", "--words"][..],
            &["sheet", "--words", "a"],
            &["sheet", "a", "--words"],
            &["sheet", "--words", "--", "a"],
        ] {
            assert!(sheet(given).in_words, "{given:?}");
        }
        for given in [&["sheet"][..], &["sheet", "a"], &["sheet", "--", "--words"]] {
            assert!(!sheet(given).in_words, "{given:?}");
        }
    }

    #[test]
    fn words_are_no_file() {
        assert_eq!(sources(&["sheet", "--words"]), [Source::StandardInput]);
        let files = [Source::File("a".into())];
        assert_eq!(sources(&["sheet", "--words", "a"]), files);
    }

    #[test]
    fn another_option_is_told_which_there_are() {
        assert_eq!(
            complaint(&["sheet", "--word"]),
            "--word is no option of sheet, which knows --words, --figure FIGURE and --help."
        );
    }

    #[test]
    fn a_figure_may_be_named_anywhere_but_after_two_dashes() {
        for given in [
            &["sheet", "--figure", "f", "a"][..],
            &["sheet", "a", "--figure", "f"],
            &["sheet", "a", "--words", "--figure", "f"],
            &["sheet", "--figure", "f", "--", "a"],
        ] {
            let sheet = sheet(given);
            assert_eq!(sheet.figure, Some(Source::File("f".into())), "{given:?}");
            assert_eq!(sheet.sources, [Source::File("a".into())], "{given:?}");
        }
        for given in [&["sheet", "a"][..], &["sheet", "--", "--figure", "a"]] {
            assert_eq!(sheet(given).figure, None, "{given:?}");
        }
    }

    #[test]
    fn a_figure_is_no_job() {
        assert_eq!(
            sources(&["sheet", "--figure", "f"]),
            [Source::StandardInput]
        );
        let figure = sheet(&["sheet", "--figure", "-", "a"]).figure;
        assert_eq!(figure, Some(Source::StandardInput));
    }

    #[test]
    fn an_option_for_a_figure_without_one_is_a_complaint() {
        for given in [
            &["sheet", "--figure"][..],
            &["sheet", "a", "--figure"],
            &["sheet", "--figure", "--words", "a"],
            &["sheet", "--figure", "--", "a"],
        ] {
            assert_eq!(
                complaint(given),
                "the word behind --figure is missing: call it as leverbonnet sheet [--words] \
                 [--figure FIGURE] [FILE..]."
            );
        }
    }

    #[test]
    fn two_figures_are_a_complaint() {
        assert_eq!(
            complaint(&["sheet", "--figure", "f", "a", "--figure", "f"]),
            "--figure can be given once."
        );
    }

    #[test]
    fn standard_input_twice_is_a_complaint() {
        for given in [
            &["sheet", "-", "a", "-"][..],
            &["sheet", "--figure", "-", "-"],
            &["sheet", "a", "-", "--figure", "-"],
        ] {
            assert_eq!(
                complaint(given),
                "standard input can be read once: give - at most once."
            );
        }
    }

    #[test]
    fn with_the_figure_on_standard_input_a_job_has_to_be_named() {
        assert_eq!(
            complaint(&["sheet", "--figure", "-"]),
            "standard input is the figure: name the FILE of the job."
        );
    }
}
