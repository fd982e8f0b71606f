//! `install DIR`, and the program that it puts there. Where the library can't
//! be linked there is none.
#![cfg(all(target_arch = "x86_64", not(feature = "piped")))]

use std::fs::{self, Permissions};
use std::io::{self, Write};
use std::os::unix::fs::{symlink, PermissionsExt};
use std::path::Path;
use std::process::{Command, Stdio};
use std::time::Instant;

use crate::folder::{example, example_bytes, Folder};
use crate::run::{ended, leverbonnet, program, shell, Ended};
use crate::user::held_back;

fn install(folder: &Path) -> Ended {
    ended(leverbonnet(&["install"]).arg(folder))
}

/// A folder with the program in it.
fn with_program() -> Folder {
    let folder = Folder::new();
    let installed = install(&folder);
    assert_eq!(installed.status, 0, "{installed:?}");
    folder
}

/// The installed program in a folder of its own, with nothing in its
/// environment.
fn alone(folder: &Folder) -> Command {
    let mut command = program(folder.join("leverbonnet"));
    command.env_clear().current_dir("/");
    command
}

fn names(folder: &Path) -> Vec<String> {
    fs::read_dir(folder)
        .expect("it is a folder")
        .map(|file| file.expect("it can be listed").file_name())
        .map(|name| name.to_string_lossy().into_owned())
        .collect()
}

#[test]
fn where_it_is_put_is_said() {
    let folder = Folder::new();
    let installed = install(&folder);
    let expected = format!("installed {}/leverbonnet\n", folder.display());
    assert_eq!((installed.out, installed.told), (expected, String::new()));
    assert_eq!(names(&folder), ["leverbonnet"]);
}

#[test]
fn everybody_may_run_it_whatever_the_mask() {
    let folder = Folder::new();
    let mut command = shell(r#"umask 077; "$1" install "$2""#);
    assert_eq!(ended(command.arg(&*folder)).status, 0);
    let mode = fs::metadata(folder.join("leverbonnet")).expect("it is there");
    assert_eq!(mode.permissions().mode() & 0o777, 0o755);
}

#[test]
fn it_needs_neither_project_nor_environment() {
    let folder = with_program();
    let printed = ended(alone(&folder).arg("sheet").arg(example("worked.job")));
    assert_eq!(printed.out.into_bytes(), example_bytes("worked.txt"));
    let listed = ended(alone(&folder).args(["layout", "round", "2", "120", "100"]));
    assert_eq!(listed.out, "1 1752\n2 10248\n");
}

#[test]
fn it_has_no_tests() {
    ended(alone(&with_program()).arg("test"))
        .assert_one_sentence(1, "run ./leverbonnet test there");
}

#[test]
fn a_thousand_calls_are_answered_alike() {
    let folder = with_program();
    let mut command = program("sh");
    let line = r#"i=0; while [ $i -lt 1000 ]; do "$1" sheet "$2" || exit 1; i=$((i + 1)); done"#;
    command.args(["-c", line, "sh"]);
    command
        .arg(folder.join("leverbonnet"))
        .arg(example("worked.job"));
    let began = Instant::now();
    let printed = ended(&mut command);
    let took = began.elapsed();
    // Written past the harness, which keeps what a test prints to itself.
    let _ = writeln!(
        io::stderr(),
        "1,000 calls of the installed program: {took:.1?}"
    );
    assert_eq!(printed.status, 0);
    assert_eq!(
        printed.out.into_bytes(),
        example_bytes("worked.txt").repeat(1_000)
    );
}

#[test]
fn an_older_one_is_replaced() {
    let folder = Folder::new();
    folder.put_script("leverbonnet", "echo older");
    assert_eq!(install(&folder).status, 0);
    assert_eq!(ended(alone(&folder).arg("--version")).status, 0);
    assert_eq!(names(&folder), ["leverbonnet"]);
}

#[test]
fn one_that_is_running_is_replaced() {
    let folder = with_program();
    let mut running = Command::new(folder.join("leverbonnet"))
        .args(["sheet", "-"])
        .stdin(Stdio::piped())
        .stdout(Stdio::null())
        .stderr(Stdio::null())
        .spawn()
        .expect("it can be started");
    let replaced = install(&folder);
    drop(running.stdin.take());
    running.wait().expect("it ends without its input");
    assert_eq!(replaced.status, 0, "{replaced:?}");
}

#[test]
fn a_link_is_replaced_and_what_it_leads_to_stays() {
    let other = Folder::new();
    other.put_script("own", "echo own");
    let folder = Folder::new();
    symlink(other.join("own"), folder.join("leverbonnet")).expect("it is ours");
    assert_eq!(install(&folder).status, 0);
    assert_eq!(ended(alone(&folder).arg("--version")).status, 0);
    let kept = fs::read_to_string(other.join("own")).expect("it is there");
    assert!(kept.contains("echo own"));
}

#[test]
fn it_does_not_copy_itself_onto_itself() {
    let folder = with_program();
    let ended = ended(alone(&folder).arg("install").arg(&*folder));
    ended.assert_one_sentence(1, "is this very program");
    assert_eq!(names(&folder), ["leverbonnet"]);
}

#[test]
fn what_is_no_folder_is_told() {
    let folder = Folder::new();
    install(&folder.join("missing")).assert_one_sentence(1, "is no folder: No such file");
    install(&example("worked.job")).assert_one_sentence(1, "worked.job is no folder");
}

#[test]
fn what_can_not_be_replaced_leaves_no_part_behind() {
    let folder = Folder::new();
    fs::create_dir(folder.join("leverbonnet")).expect("it is ours");
    install(&folder).assert_one_sentence(1, "can not be written: Is a directory.");
    assert_eq!(names(&folder), ["leverbonnet"]);
}

#[test]
fn a_folder_that_can_not_be_written_is_told() {
    let folder = Folder::new();
    fs::set_permissions(&*folder, Permissions::from_mode(0o555)).expect("it is ours");
    let installed = with_program();
    let ended = ended(held_back(alone(&installed).arg("install").arg(&*folder)));
    ended.assert_one_sentence(1, "can not be written: Permission denied.");
    fs::set_permissions(&*folder, Permissions::from_mode(0o755)).expect("it is ours");
}

#[test]
fn the_projects_own_command_is_not_replaced() {
    let folder = Folder::new();
    folder.put_script("leverbonnet", "echo own");
    let link = Folder::new();
    symlink(&*folder, link.join("project")).expect("a link can be made in ours");
    for given in [folder.to_path_buf(), link.join("project")] {
        let mut command = leverbonnet(&["install"]);
        let ended = ended(command.arg(given).env("LEVERBONNET_PROJECT", &*folder));
        ended.assert_one_sentence(1, "is the project's own folder");
    }
    let kept = fs::read_to_string(folder.join("leverbonnet")).expect("it is there");
    assert!(kept.contains("echo own"));
}
