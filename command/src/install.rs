//! The running program put into a folder.

use std::fs::{self, File, Metadata, OpenOptions, Permissions};
use std::io;
use std::os::unix::ffi::OsStrExt;
use std::os::unix::fs::{MetadataExt, OpenOptionsExt, PermissionsExt};
use std::path::{Path, PathBuf};
use std::process;

use words::{shown, standard, Status};

const NAME: &str = "leverbonnet";

/// The running program, also where its file was replaced meanwhile.
const RUNNING: &str = "/proc/self/exe";

const MODE: u32 = 0o755;

/// Copies the running program into the folder, and says where it is.
pub fn installed(folder: &Path) -> Status {
    match put_into(folder) {
        Ok(program) => {
            let mut text = b"installed ".to_vec();
            text.extend_from_slice(program.as_os_str().as_bytes());
            text.push(b'\n');
            standard::print(&text)
        }
        Err(sentence) => {
            standard::tell(&sentence);
            Status::Failed
        }
    }
}

/// Answers where the program is now, or why it is not there.
fn put_into(folder: &Path) -> Result<PathBuf, String> {
    let name = shown(folder.as_os_str());
    let program = folder.join(NAME);
    let path = shown(program.as_os_str());
    match fs::metadata(folder).map(|found| found.is_dir()) {
        Ok(true) => {}
        Ok(false) => return Err(format!("{name} is no folder.")),
        Err(trouble) => {
            let reason = standard::reason(&trouble);
            return Err(format!("{name} is no folder: {reason}."));
        }
    }
    if is_project(folder) {
        return Err(format!(
            "{name} is the project's own folder, where {NAME} is what builds it."
        ));
    }
    if is_running(&program) {
        return Err(format!("{path} is this very program."));
    }
    match replace(folder, &program) {
        Ok(()) => Ok(program),
        Err(trouble) => {
            let reason = standard::reason(&trouble);
            Err(format!("{path} can not be written: {reason}."))
        }
    }
}

/// Whether `./leverbonnet` of the project stands in the folder.
fn is_project(folder: &Path) -> bool {
    let project = words::project().map(fs::canonicalize);
    match (project, fs::canonicalize(folder)) {
        (Some(Ok(project)), Ok(folder)) => project == folder,
        _ => false,
    }
}

/// Whether the running program is the file there, and no link to it.
fn is_running(program: &Path) -> bool {
    let file = |found: Metadata| (found.dev(), found.ino());
    match (fs::symlink_metadata(program), fs::metadata(RUNNING)) {
        (Ok(there), Ok(running)) => file(there) == file(running),
        _ => false,
    }
}

/// Puts the program in its place whole, or leaves what was there.
fn replace(folder: &Path, program: &Path) -> io::Result<()> {
    let part = folder.join(format!(".{NAME}.{}", process::id()));
    let mut copy = OpenOptions::new()
        .write(true)
        .create_new(true)
        .mode(MODE)
        .open(&part)?;
    let replaced = fill(&mut copy).and_then(|()| fs::rename(&part, program));
    if replaced.is_err() {
        // The trouble that is told is the first one.
        let _ = fs::remove_file(&part);
    }
    replaced
}

fn fill(copy: &mut File) -> io::Result<()> {
    io::copy(&mut File::open(RUNNING)?, copy)?;
    // What the caller's mask took off the mode is given back.
    copy.set_permissions(Permissions::from_mode(MODE))
}
