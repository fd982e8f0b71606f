//! --version

use crate::command::{Asked, Command};
use crate::complaint::Complaint;
use crate::given::Given;

const USAGE: &str = "--version";

pub(crate) const COMMAND: Command = Command {
    name: "--version",
    usage: &[[USAGE, "the program's name and version"]],
    about: "\
One line, to be named where an answer is questioned.
",
    options: &[],
    read,
};

fn read(mut given: Given) -> Result<Asked, Complaint> {
    given.ended(USAGE)?;
    let version = env!("CARGO_PKG_VERSION");
    Ok(Asked::Text(format!("leverbonnet {version}\n")))
}
