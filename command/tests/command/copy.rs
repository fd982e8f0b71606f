//! Copies of the project, and what stands in for the tools that it starts.

use std::env;
use std::ffi::{OsStr, OsString};
use std::fs;
use std::ops::Deref;
use std::os::unix::fs::symlink;
use std::path::Path;
use std::process::Command;

use crate::folder::{project, Folder};
use crate::run::program;

/// A copy of the project's sources, with their times. Nothing is built in it,
/// and the proofs stay behind, because nothing is proved in it.
pub struct Copy(Folder);

impl Copy {
    pub fn new() -> Self {
        let folder = Folder::new();
        let left = [".git", "target", "crates"];
        let sources = names(Path::new("."))
            .into_iter()
            .filter(|name| left.iter().all(|left| name != left));
        let crates = names(Path::new("crates"));
        let crates = crates.iter().map(|name| Path::new("crates").join(name));
        let mut command = Command::new("cp");
        command.args(["-a", "--parents"]).args(sources);
        command.args(crates.map(|folder| folder.join("src")));
        run(command.arg(&*folder).current_dir(project()));
        Copy(folder)
    }

    /// `./leverbonnet` of the copy with these words, called from elsewhere.
    pub fn call(&self, words: &[&str]) -> Command {
        let mut command = outside(self.join("leverbonnet"));
        command.args(words).current_dir("/");
        command
    }

    /// Gives a file the present time.
    pub fn touch(&self, name: &str) {
        run(Command::new("touch").arg(self.join(name)));
    }

    /// Changes the modes of everything in the copy, as chmod is told to.
    pub fn set_modes(&self, modes: &str) {
        run(Command::new("chmod").arg("-R").arg(modes).arg(&**self));
    }

    /// Puts a built file of the project into the copy.
    pub fn put(&self, from: &Path, name: &str) {
        let to = self.join(name);
        fs::create_dir_all(to.parent().expect("it lies in the copy")).expect("it is ours");
        fs::copy(from, to).expect("it is built, and the copy is ours");
    }

    /// Writes a file of the copy.
    pub fn write(&self, name: &str, text: &str) {
        let path = self.join(name);
        fs::create_dir_all(path.parent().expect("it lies in the copy")).expect("it is ours");
        fs::write(path, text).expect("it is ours");
    }

    /// Puts a file into the copy that can be run.
    pub fn put_script(&self, name: &str, text: &str) {
        self.0.put_script(name, text);
    }

    pub fn read(&self, name: &str) -> String {
        fs::read_to_string(self.join(name)).unwrap_or_default()
    }

    pub fn remove(&self, name: &str) {
        fs::remove_file(self.join(name)).expect("it is there, and ours");
    }
}

impl Deref for Copy {
    type Target = Path;

    fn deref(&self) -> &Path {
        &self.0
    }
}

/// A program to which nothing is handed of how these tests were built and called.
pub fn outside(path: impl AsRef<OsStr>) -> Command {
    let mut command = program(path);
    for variable in ["LEVERBONNET_CALLS", "LEVERBONNET_LIB_DIR", "RUSTC"] {
        command.env_remove(variable);
    }
    command
}

/// The names in a folder of the project.
fn names(folder: &Path) -> Vec<OsString> {
    let files = fs::read_dir(project().join(folder)).expect("the project can be listed");
    files
        .map(|file| file.expect("the project can be listed").file_name())
        .collect()
}

fn run(command: &mut Command) {
    let status = command.status().expect("it can be started");
    assert!(status.success(), "{command:?}");
}

/// Programs that are found before those of the PATH.
pub struct StandIns(Folder);

impl StandIns {
    pub fn new() -> Self {
        StandIns(Folder::new())
    }

    /// A stand-in that writes down its words before it does what the script
    /// says. In the script $stand_ins is this folder.
    pub fn put(&self, name: &str, script: &str) {
        let line = r#"stand_ins=$(dirname -- "$0"); echo "${0##*/} $*" >>"$stand_ins/started""#;
        self.0.put_script(name, &format!("{line}\n{script}"));
    }

    /// A stand-in that writes nothing down.
    pub fn put_quiet(&self, name: &str, script: &str) {
        self.0.put_script(name, script);
    }

    /// Takes a stand-in away.
    pub fn remove(&self, name: &str) {
        fs::remove_file(self.0.join(name)).expect("it is there, and ours");
    }

    /// What was started, a line each, since this was last asked.
    pub fn started(&self) -> Vec<String> {
        let path = self.0.join("started");
        let text = fs::read_to_string(&path).unwrap_or_default();
        let _ = fs::remove_file(path);
        text.lines().map(String::from).collect()
    }

    /// Has the command find these first.
    pub fn before<'a>(&self, command: &'a mut Command) -> &'a mut Command {
        let mut path = OsString::from(&**self);
        path.push(":");
        path.push(others());
        command.env("PATH", path)
    }
}

impl Deref for StandIns {
    type Target = Path;

    fn deref(&self) -> &Path {
        &self.0
    }
}

/// The PATH of these tests.
fn others() -> OsString {
    env::var_os("PATH").expect("there is a PATH")
}

/// A folder with these programs of the PATH, as far as there are any.
pub fn path_of<'a>(programs: impl Iterator<Item = &'a str>) -> Folder {
    let folder = Folder::new();
    let others = others();
    for name in programs {
        let mut places = env::split_paths(&others).map(|place| place.join(name));
        if let Some(program) = places.find(|program| program.exists()) {
            symlink(program, folder.join(name)).expect("it is ours");
        }
    }
    folder
}
