//! What the comparison is told to compare.

use std::env;

use leverbonnet::pipe::CommandLine;

pub struct Arguments {
    /// The program that makes the proved library's calls, if not linked.
    pub calls: Option<CommandLine>,
    pub sheet: Option<CommandLine>,
    pub library_only: bool,
}

impl Arguments {
    /// From the words of the command line, then from variables of the same
    /// meaning.
    pub fn given() -> Result<Self, String> {
        let mut given = Arguments {
            calls: None,
            sheet: None,
            library_only: false,
        };
        let mut words = env::args().skip(1);
        while let Some(word) = words.next() {
            match word.as_str() {
                "--library-only" => given.library_only = true,
                "--calls" => given.calls = Some(command_after(&word, words.next())?),
                "--sheet" => given.sheet = Some(command_after(&word, words.next())?),
                _ => return Err(format!("Unknown argument {word}.")),
            }
        }
        if given.library_only && given.sheet.is_some() {
            return Err("Give either --library-only or --sheet, not both.".into());
        }
        if given.calls.is_none() {
            given.calls = command_in("LEVERBONNET_CALLS")?;
        }
        if given.sheet.is_none() && !given.library_only {
            given.sheet = command_in("SHEET")?;
        }
        Ok(given)
    }
}

fn command_after(word: &str, text: Option<String>) -> Result<CommandLine, String> {
    let text = text.ok_or(format!("{word} needs a command after it, as one argument."))?;
    split(word, &text)
}

fn command_in(variable: &str) -> Result<Option<CommandLine>, String> {
    match env::var(variable) {
        Ok(text) => split(variable, &text).map(Some),
        Err(_) => Ok(None),
    }
}

fn split(given_with: &str, text: &str) -> Result<CommandLine, String> {
    CommandLine::split(text).map_err(|trouble| format!("{given_with}: {trouble}."))
}
