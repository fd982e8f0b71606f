//! explain FILE [RUN [RULE PLACE]] [--figure FIGURE]

use crate::command::{Asked, Command};
use crate::complaint::Complaint;
use crate::given::Given;
use crate::number::number;
use crate::source::{self, Source, FIGURE};
use crate::Work;

const USAGE: &str = "explain FILE [RUN [RULE PLACE]] [--figure FIGURE]";

pub(crate) const COMMAND: Command = Command {
    name: "explain",
    usage: &[[USAGE, "why each finding of a job stands"]],
    about: "\
Of every run of the job, or of the one with the number RUN, prints its first line
of the sheet and each of its findings, or the one of RULE and PLACE. Under a
finding stand the numbers that its rule compares and the days of the certificates
that were used. PLACE is the finding's last number, 0 for the whole run.

A FILE of - is standard input. One whose name begins with - is given as ./-.. or
after --. A job without that run prints REFUSED 10 0, a run without that finding
REFUSED 15 0; any other job that is refused prints REFUSED, its number and its
place. Nothing else is printed then.

--figure reads the file FIGURE, an agency's steps of figure 1-1: the findings are
then those that sheet --figure prints. A FIGURE of - is standard input.
",
    options: &[FIGURE],
    read,
};

/// The job whose findings are to be explained.
#[derive(Debug, PartialEq, Eq)]
pub struct Explain {
    pub source: Source,
    /// The figure that its findings go by.
    pub figure: Option<Source>,
    pub part: Part,
}

/// How much of a job is to be explained.
#[derive(Clone, Copy, Debug, PartialEq, Eq)]
pub enum Part {
    Job,
    Run { run: u16 },
    Finding { run: u16, rule: u16, place: u16 },
}

fn read(mut given: Given) -> Result<Asked, Complaint> {
    let figure = source::figure(&mut given, USAGE)?;
    let source = Source::from(given.needed("the FILE of the job", USAGE)?);
    source::read_once(figure.iter().chain([&source]))?;
    let part = part(given)?;
    Ok(Asked::Work(Work::Explain(Explain {
        source,
        figure,
        part,
    })))
}

/// What the words behind the file ask for: whether all of them are there, and none too
/// many, comes before what they say.
fn part(mut given: Given) -> Result<Part, Complaint> {
    let run = match given.next() {
        Some(run) => run,
        None => return Ok(Part::Job),
    };
    let finding = match given.next() {
        Some(rule) => Some((rule, given.needed("the PLACE of the finding", USAGE)?)),
        None => None,
    };
    given.ended(USAGE)?;
    let run = number("run", &run)?;
    Ok(match finding {
        None => Part::Run { run },
        Some((rule, place)) => Part::Finding {
            run,
            rule: number("rule", &rule)?,
            place: number("place", &place)?,
        },
    })
}

#[cfg(test)]
mod tests {
    use std::ffi::OsString;

    use super::*;
    use crate::command::asked;

    fn words(given: &[&str]) -> Result<Asked, Complaint> {
        let words = [&["explain"], given].concat();
        asked(words.iter().map(OsString::from).collect())
    }

    fn explain(given: &[&str]) -> Explain {
        match words(given) {
            Ok(Asked::Work(Work::Explain(explain))) => explain,
            other => panic!("{given:?}: {other:?}"),
        }
    }

    fn complaint(given: &[&str]) -> String {
        words(given).unwrap_err().sentence().into()
    }

    #[test]
    fn a_job_a_run_or_a_finding() {
        for (given, part) in [
            (&["a"][..], Part::Job),
            (&["a", "7"], Part::Run { run: 7 }),
            (
                &["a", "999", "17", "8"],
                Part::Finding {
                    run: 999,
                    rule: 17,
                    place: 8,
                },
            ),
            (
                &["a", "0", "65535", "00"],
                Part::Finding {
                    run: 0,
                    rule: 65_535,
                    place: 0,
                },
            ),
        ] {
            let explain = explain(given);
            assert_eq!(explain.part, part);
            assert_eq!(explain.source, Source::File("a".into()));
            assert_eq!(explain.figure, None);
        }
    }

    #[test]
    fn a_file_may_be_standard_input_or_stand_after_two_dashes() {
        assert_eq!(explain(&["-"]).source, Source::StandardInput);
        let file = Source::File("--help".into());
        assert_eq!(explain(&["--", "--help", "7"]).source, file);
    }

    #[test]
    fn a_figure_may_be_named_anywhere() {
        for given in [
            &["--figure", "f", "a", "7", "9", "0"][..],
            &["a", "--figure", "f", "7", "9", "0"],
            &["a", "7", "--figure", "f", "9", "0"],
            &["a", "7", "9", "0", "--figure", "f"],
        ] {
            let explain = explain(given);
            assert_eq!(explain.source, Source::File("a".into()), "{given:?}");
            assert_eq!(explain.figure, Some(Source::File("f".into())), "{given:?}");
            let finding = Part::Finding {
                run: 7,
                rule: 9,
                place: 0,
            };
            assert_eq!(explain.part, finding, "{given:?}");
        }
    }

    #[test]
    fn a_file_is_needed_and_with_a_rule_a_place() {
        for (given, missing) in [
            (&[][..], "the FILE of the job"),
            (&["--figure", "f"], "the FILE of the job"),
            (&["a", "7", "9"], "the PLACE of the finding"),
            (&["a", "x", "y"], "the PLACE of the finding"),
        ] {
            assert_eq!(
                complaint(given),
                format!("{missing} is missing: call it as leverbonnet {USAGE}.")
            );
        }
    }

    #[test]
    fn a_word_too_many_is_a_complaint() {
        let sentence = complaint(&["a", "7", "9", "0", "1"]);
        assert!(sentence.starts_with("1 is one word too many: call it as leverbonnet explain "));
    }

    #[test]
    fn a_number_that_is_none_is_named() {
        for (given, start) in [
            (&["a", "b.job"][..], "the run b.job "),
            (&["a", "65536"], "the run 65536 "),
            (&["a", "7.0"], "the run 7.0 "),
            (&["a", ""], "the run '' "),
            (&["a", "7", "nine", "0"], "the rule nine "),
            (&["a", "7", "65536", "x"], "the rule 65536 "),
            (&["a", "7", "9", "x"], "the place x "),
        ] {
            let sentence = format!("{start}is no whole number up to 65535.");
            assert_eq!(complaint(given), sentence);
        }
        assert_eq!(
            complaint(&["a", "-7"]),
            "-7 is no option of explain, which knows --figure FIGURE and --help."
        );
    }

    #[test]
    fn standard_input_is_read_once() {
        assert_eq!(
            complaint(&["-", "--figure", "-"]),
            "standard input can be read once: give - at most once."
        );
        assert_eq!(
            explain(&["a", "--figure", "-"]).figure,
            Some(Source::StandardInput)
        );
    }
}
