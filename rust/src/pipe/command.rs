//! A program with its first arguments, given as one text: where programs need
//! an emulator and a loader, these come first.

use std::fmt;
use std::path::Path;
use std::process::Command;

#[derive(Clone, Debug, PartialEq, Eq)]
pub struct CommandLine {
    program: String,
    arguments: Vec<String>,
}

impl CommandLine {
    /// From its words, one a line, so that a word may hold spaces; the last line
    /// may be ended or not. Answers what is wrong with a text that names no
    /// program.
    pub fn split(text: &str) -> Result<Self, String> {
        let text = text.strip_suffix('\n').unwrap_or(text);
        let mut words = text.split('\n').map(String::from);
        let program = words.next().filter(|word| !word.trim().is_empty());
        let program = program.ok_or("a command can not be blank")?;
        // A name without a slash is looked for when it is started.
        if program.contains('/') && !Path::new(&program).is_file() {
            return Err(format!("there is no program {program}"));
        }
        Ok(CommandLine {
            program,
            arguments: words.collect(),
        })
    }

    pub fn command(&self) -> Command {
        let mut command = Command::new(&self.program);
        command.args(&self.arguments);
        command
    }
}

impl fmt::Display for CommandLine {
    fn fmt(&self, f: &mut fmt::Formatter) -> fmt::Result {
        write!(f, "{}", self.program)?;
        self.arguments
            .iter()
            .try_for_each(|word| write!(f, " {word}"))
    }
}

#[cfg(test)]
mod tests {
    use super::*;

    #[test]
    fn words_stand_one_a_line_and_may_hold_spaces() {
        let line = CommandLine::split("echo\na b\n\nc").unwrap();
        assert_eq!(line.program, "echo");
        assert_eq!(line.arguments, ["a b", "", "c"]);
    }

    #[test]
    fn the_last_line_may_be_ended() {
        assert_eq!(
            CommandLine::split("echo\na\n"),
            CommandLine::split("echo\na")
        );
    }

    #[test]
    fn a_blank_text_names_no_program() {
        for text in ["", "\n", " ", " \nword"] {
            assert!(CommandLine::split(text).is_err(), "{text:?}");
        }
    }

    #[test]
    fn a_path_that_is_no_file_is_told() {
        let told = CommandLine::split("/no such folder/calls").unwrap_err();
        assert_eq!(told, "there is no program /no such folder/calls");
    }
}
