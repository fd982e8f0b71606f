//! Temporary folders, and the project's own.

use std::env;
use std::ffi::OsStr;
use std::fs::{self, Permissions};
use std::io::Write;
use std::ops::Deref;
use std::os::unix::fs::PermissionsExt;
use std::path::{Path, PathBuf};
use std::process::{self, Command, Stdio};
use std::sync::atomic::{AtomicUsize, Ordering};
use std::thread;

/// The project whose tests these are.
pub fn project() -> &'static Path {
    let package = Path::new(env!("CARGO_MANIFEST_DIR"));
    package.parent().expect("the package lies in its project")
}

pub fn example(name: &str) -> PathBuf {
    project().join("examples").join(name)
}

pub fn example_bytes(name: &str) -> Vec<u8> {
    fs::read(example(name)).expect("the example is there")
}

/// A text that is stored beside the examples.
pub fn example_text(name: &str) -> String {
    String::from_utf8(example_bytes(name)).expect("stored sheets are text")
}

/// All examples whose name has that ending.
pub fn examples(ending: &str) -> Vec<PathBuf> {
    let such = with_ending(&project().join("examples"), ending);
    assert!(such.len() >= 3, "{} examples", such.len());
    such
}

/// The files of a folder whose name has that ending.
pub fn with_ending(folder: &Path, ending: &str) -> Vec<PathBuf> {
    let files = fs::read_dir(folder).expect("it is a folder");
    let paths = files.map(|file| file.expect("it can be listed").path());
    paths
        .filter(|path| path.extension() == Some(OsStr::new(ending)))
        .collect()
}

/// A folder with a space in its name that everybody may read. It is removed
/// when it is dropped.
pub struct Folder(PathBuf);

impl Folder {
    pub fn new() -> Self {
        static MADE: AtomicUsize = AtomicUsize::new(0);
        let number = MADE.fetch_add(1, Ordering::Relaxed);
        let name = format!("leverbonnet test {} {number}", process::id());
        let path = env::temp_dir().join(name);
        fs::create_dir(&path).expect("a temporary folder can be made");
        fs::set_permissions(&path, Permissions::from_mode(0o755)).expect("it is ours");
        Folder(path)
    }

    /// Writes a file that can be run. Another process writes it: a program that
    /// a test beside this one starts could for a moment hold the file open too,
    /// and a file that is open for writing can't be run.
    pub fn put_script(&self, name: &str, text: &str) {
        let path = self.0.join(name);
        let above = path.parent().expect("it lies in the folder");
        fs::create_dir_all(above).expect("the folder is ours");
        let mut writer = Command::new("sh")
            .args(["-c", r#"cat >"$1" && chmod 755 "$1""#, "sh"])
            .arg(&path)
            .stdin(Stdio::piped())
            .spawn()
            .expect("sh can be started");
        let mut pipe = writer.stdin.take().expect("it is piped");
        write!(pipe, "#!/bin/sh\n{text}\n").expect("it is read");
        drop(pipe);
        assert!(writer.wait().expect("it can be waited for").success());
    }
}

impl Deref for Folder {
    type Target = Path;

    fn deref(&self) -> &Path {
        &self.0
    }
}

impl Drop for Folder {
    fn drop(&mut self) {
        let removed = fs::remove_dir_all(&self.0);
        // A test that fails may leave modes behind that keep it from being removed.
        assert!(removed.is_ok() || thread::panicking(), "{removed:?}");
    }
}
