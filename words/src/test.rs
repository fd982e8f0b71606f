//! test

use crate::command::{Asked, Command};
use crate::complaint::Complaint;
use crate::given::Given;

const USAGE: &str = "test";

pub(crate) const COMMAND: Command = Command {
    name: "test",
    usage: &[[USAGE, "prove everything and run all tests"]],
    about: "\
This is the project's gate, .ci/run. It deletes target/ with all that was proved
and built, and proves everything anew: some 20 minutes on two cores. It needs
the project's folder, so an installed program does not have it.
",
    options: &[],
    read,
};

fn read(mut given: Given) -> Result<Asked, Complaint> {
    given.ended(USAGE)?;
    Ok(Asked::Test)
}
