//! The gate: `.ci/run` of the project.

use std::env;
use std::os::unix::process::CommandExt;
use std::path::{Path, PathBuf};
use std::process::Command;

use crate::complaint::shown;
use crate::standard;
use crate::status::Status;

/// The project's folder, as `./leverbonnet` names it for what it starts; an
/// installed program has none.
pub fn project() -> Option<PathBuf> {
    env::var_os("LEVERBONNET_PROJECT").map(PathBuf::from)
}

/// Becomes the gate, and comes back only if it can't be started.
pub(crate) fn become_it() -> Status {
    // A verdict that nobody could read would be the answer of 20 minutes.
    if let Err(trouble) = standard::output() {
        return standard::unwritten(&trouble);
    }
    match project() {
        Some(project) => unstarted(&project.join(".ci/run")),
        None => {
            standard::tell(
                "the tests stand in the project's folder: run ./leverbonnet test there.",
            );
            Status::Failed
        }
    }
}

fn unstarted(gate: &Path) -> Status {
    let trouble = Command::new(gate).exec();
    standard::tell(&format!(
        "{} can not be started: {}.",
        shown(gate.as_os_str()),
        standard::reason(&trouble)
    ));
    Status::Failed
}
