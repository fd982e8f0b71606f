//! A user who may write nothing.

use std::fs;
use std::os::unix::fs::MetadataExt;
use std::os::unix::process::CommandExt;
use std::process::Command;

/// Nobody: the user to whom nothing belongs.
const NOBODY: u32 = 65_534;

fn is_root() -> bool {
    let process = fs::metadata("/proc/self").expect("this process is there");
    process.uid() == 0
}

/// Has the command run as a user whom modes hold back: root, whom they don't,
/// becomes nobody.
pub fn held_back(command: &mut Command) -> &mut Command {
    if is_root() {
        command.uid(NOBODY).gid(NOBODY);
    }
    command
}
