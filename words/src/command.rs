//! The commands, and which of them the words ask for.

use std::ffi::{OsStr, OsString};

use crate::complaint::{shown, Complaint};
use crate::given::{Given, Known};
use crate::{explain, help, install, layout, sheet, test, version, Work};

/// What a command asks for.
#[derive(Debug, PartialEq, Eq)]
pub(crate) enum Asked {
    /// A text that is the answer itself.
    Text(String),
    Test,
    Work(Work),
}

pub(crate) struct Command {
    pub name: &'static str,
    /// Each way to call it, and what that does.
    pub usage: &'static [[&'static str; 2]],
    /// What else there is to know, in whole lines.
    pub about: &'static str,
    /// Its options beside `--help`.
    pub options: &'static [Known],
    pub read: fn(Given) -> Result<Asked, Complaint>,
}

/// In the order of the short help.
pub(crate) const COMMANDS: [&Command; 7] = [
    &sheet::COMMAND,
    &explain::COMMAND,
    &layout::COMMAND,
    &install::COMMAND,
    &test::COMMAND,
    &help::COMMAND,
    &version::COMMAND,
];

const HELP_OPTIONS: [&str; 2] = ["--help", "-h"];

/// What the words ask for. No word at all asks for the short help.
pub(crate) fn asked(words: Vec<OsString>) -> Result<Asked, Complaint> {
    let mut words = words.into_iter();
    let command = match words.next() {
        Some(name) => named(&name)?,
        None => return Ok(Asked::Text(help::short())),
    };
    let given = Given::sorted(words, command.options);
    if HELP_OPTIONS.iter().any(|option| given.has(option)) {
        return Ok(Asked::Text(help::of(command)));
    }
    match given.unknown_option(command.options) {
        Some(option) => Err(unknown_option(command, option)),
        None => (command.read)(given),
    }
}

/// The command of that name.
pub(crate) fn named(name: &OsStr) -> Result<&'static Command, Complaint> {
    if HELP_OPTIONS.iter().any(|option| name == *option) {
        return Ok(&help::COMMAND);
    }
    let found = COMMANDS.into_iter().find(|command| name == command.name);
    found.ok_or_else(|| {
        let names: Vec<&str> = COMMANDS.iter().map(|command| command.name).collect();
        let names = names.join(", ");
        format!("{} is no command: there are {names}.", shown(name)).into()
    })
}

fn unknown_option(command: &Command, option: &OsStr) -> Complaint {
    let options: Vec<String> = command.options.iter().map(called).collect();
    let options = options.join(", ");
    let and = if options.is_empty() { "" } else { " and " };
    let (option, name) = (shown(option), command.name);
    format!("{option} is no option of {name}, which knows {options}{and}--help.").into()
}

/// An option as it is given, with what its word stands for.
fn called(option: &Known) -> String {
    match option.takes {
        Some(word) => format!("{} {word}", option.name),
        None => option.name.into(),
    }
}

#[cfg(test)]
mod tests {
    use super::*;

    fn words(words: &[&str]) -> Result<Asked, Complaint> {
        asked(words.iter().map(OsString::from).collect())
    }

    fn complaint(given: &[&str]) -> String {
        words(given).unwrap_err().sentence().into()
    }

    #[test]
    fn no_word_asks_for_the_short_help() {
        assert_eq!(words(&[]), Ok(Asked::Text(help::short())));
    }

    #[test]
    fn help_is_an_option_of_every_command() {
        for command in COMMANDS {
            for option in HELP_OPTIONS {
                let text = Ok(Asked::Text(help::of(command)));
                assert_eq!(words(&[command.name, option]), text);
                assert_eq!(words(&[command.name, "x", "--y", option]), text);
            }
        }
    }

    #[test]
    fn an_unknown_command_is_told_which_there_are() {
        let sentence = complaint(&["sheets"]);
        assert_eq!(
            sentence,
            "sheets is no command: there are sheet, explain, layout, install, test, help, --version."
        );
    }

    #[test]
    fn an_unknown_option_is_told_which_there_are() {
        assert_eq!(
            complaint(&["layout", "round", "6", "240", "250", "--png"]),
            "--png is no option of layout, which knows --svg and --help."
        );
        assert_eq!(
            complaint(&["sheet", "--figure=a.fig"]),
            "--figure=a.fig is no option of sheet, which knows --words, --figure FIGURE and --help."
        );
        assert_eq!(
            complaint(&["test", "--png"]),
            "--png is no option of test, which knows --help."
        );
        for command in COMMANDS {
            assert!(complaint(&[command.name, "--png"]).starts_with("--png is no option"));
        }
    }

    #[test]
    fn every_complaint_is_one_sentence_on_one_line() {
        for given in [
            &["frob"][..],
            &["frob\nfrob"],
            &["sheet", "--x\n"],
            &["sheet", "-", "-"],
            &["sheet", "--figure"],
            &["sheet", "--figure", "a", "--figure", "b"],
            &["sheet", "--figure=a"],
            &["sheet", "--figure", "-"],
            &["explain"],
            &["explain", "a", "seven"],
            &["explain", "a", "7", "9"],
            &["explain", "a", "7", "9", "0", "0"],
            &["explain", "-", "--figure", "-"],
            &["layout"],
            &["layout", "square", "9", "240", "250"],
            &["layout", "round", "six", "240", "250"],
            &["layout", "rect", "9", "24.05in", "30in"],
            &["layout", "rect", "9", "24.0", "30in"],
            &["layout", "rect", "9", "240", "300", "4"],
            &["install"],
            &["install", "a", "b"],
            &["test", "now"],
            &["help", "me"],
            &["help", "sheet", "layout"],
            &["--version", "2"],
        ] {
            let sentence = complaint(given);
            assert!(!sentence.contains('\n'), "{sentence}");
            assert!(sentence.ends_with('.'), "{sentence}");
        }
    }
}
