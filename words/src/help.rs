//! help [WORD], and the texts of all help.

use crate::command::{named, Asked, Command, COMMANDS};
use crate::complaint::Complaint;
use crate::given::Given;

const USAGE: &str = "help [WORD]";

pub(crate) const COMMAND: Command = Command {
    name: "help",
    usage: &[[USAGE, "this list, or all about one word"]],
    about: "\
The same as WORD --help. Without a word, the list of all of them.
",
    options: &[],
    read,
};

fn read(mut given: Given) -> Result<Asked, Complaint> {
    let text = match given.next() {
        Some(name) => of(named(&name)?),
        None => short(),
    };
    given.ended(USAGE)?;
    Ok(Asked::Text(text))
}

/// The list of all commands.
pub(crate) fn short() -> String {
    let ways = || COMMANDS.iter().flat_map(|command| command.usage);
    let width = ways().map(|[way, _]| way.len()).max().unwrap_or(0);
    let lines: String = ways()
        .map(|[way, does]| format!("  leverbonnet {way:width$}  {does}\n"))
        .collect();
    format!(
        "\
Leverbonnet works stack-test field sheets and says whether each run stands.

{lines}
Each word has its own --help. The status is 0, or 2 if a job, a figure or a
layout was refused, or 1 if something went wrong.
"
    )
}

/// All about one command.
pub(crate) fn of(command: &Command) -> String {
    let ways: String = command
        .usage
        .iter()
        .map(|[way, does]| format!("leverbonnet {way}\n    {does}\n"))
        .collect();
    format!("{ways}\n{}", command.about)
}

#[cfg(test)]
mod tests {
    use super::*;
    use crate::command::asked;

    #[test]
    fn the_short_help_has_every_way_of_every_command() {
        for [way, _] in COMMANDS.iter().flat_map(|command| command.usage) {
            assert!(short().contains(&format!("leverbonnet {way} ")), "{way}");
        }
    }

    #[test]
    fn help_of_a_word_is_that_words_own() {
        for name in ["sheet", "explain", "layout", "install", "test", "help"] {
            let words = vec!["help".into(), name.into()];
            let command = named(name.as_ref()).unwrap();
            assert_eq!(asked(words), Ok(Asked::Text(of(command))));
        }
    }

    #[test]
    fn help_fits_a_terminal() {
        let texts = COMMANDS.into_iter().map(of).chain([short()]);
        for text in texts {
            assert!(text.lines().all(|line| line.len() <= 100), "{text}");
            assert!(text.ends_with(".\n"), "{text}");
        }
    }
}
