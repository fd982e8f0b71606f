//! `./leverbonnet` itself, built by cargo in a copy of the project. Nothing is
//! proved again: the copy has the proved library.

use std::env;
use std::fs;
use std::ops::Deref;
use std::os::raw::c_int;
use std::os::unix::fs::symlink;
use std::path::PathBuf;
use std::sync::{Mutex, MutexGuard, PoisonError};

use crate::copy::{outside, Copy, StandIns};
use crate::folder::{example, example_bytes, project, Folder};
use crate::run::{ended, started, Ended, Running};
use crate::user::held_back;

/// The copy that these tests use in turn, because building one takes seconds.
static SHARED: Mutex<Option<Copy>> = Mutex::new(None);

struct Built(MutexGuard<'static, Option<Copy>>);

impl Deref for Built {
    type Target = Copy;

    fn deref(&self) -> &Copy {
        self.0.as_ref().expect("it is made before it is handed out")
    }
}

extern "C" {
    fn atexit(last: extern "C" fn()) -> c_int;
}

/// What is static is not dropped when the tests have ended.
extern "C" fn remove_shared() {
    drop(lock().take());
}

fn lock() -> MutexGuard<'static, Option<Copy>> {
    SHARED.lock().unwrap_or_else(PoisonError::into_inner)
}

/// A copy in which the program is built and newer than its sources.
fn built() -> Built {
    let mut shared = lock();
    if shared.is_none() {
        let copy = Copy::new();
        put_library(&copy);
        *shared = Some(copy);
        // SAFETY: the function stays, and takes nothing.
        assert_eq!(unsafe { atexit(remove_shared) }, 0);
    }
    let built = Built(shared);
    assert_sheet(&sheet(&built));
    built
}

/// The proved library as if it had just been proved.
#[cfg(target_arch = "x86_64")]
fn put_library(copy: &Copy) {
    const ARCHIVE: &str = "target/staticlib/libleverbonnet.a";
    let archive = match env::var_os("LEVERBONNET_LIB_DIR") {
        Some(folder) => PathBuf::from(folder).join("libleverbonnet.a"),
        None => project().join(ARCHIVE),
    };
    copy.put(&archive, ARCHIVE);
    copy.write("target/made/library", "");
}

/// The program that makes the proved calls as if it had just been proved.
#[cfg(not(target_arch = "x86_64"))]
fn put_library(copy: &Copy) {
    const CALLS: &str = "crates/calls/out/calls";
    copy.put(&project().join(CALLS), CALLS);
    copy.write("target/made/library", "");
}

fn sheet(copy: &Copy) -> Ended {
    ended(copy.call(&["sheet"]).arg(example("worked.job")))
}

fn assert_sheet(printed: &Ended) {
    let expected = String::from_utf8_lossy(&example_bytes("worked.txt")).into_owned();
    assert_eq!(
        (&printed.out, printed.status),
        (&expected, 0),
        "{printed:?}"
    );
}

/// Stand-ins that fail, so that a call that starts one is seen.
fn failing(names: &[&str]) -> StandIns {
    let stand_ins = StandIns::new();
    for name in names {
        stand_ins.put(name, "exit 1");
    }
    stand_ins
}

#[test]
fn a_built_project_tells_nothing_but_the_answer() {
    let copy = built();
    assert_eq!(sheet(&copy).told, "");
}

#[test]
fn an_unchanged_project_starts_neither_rt_nor_cargo() {
    let copy = built();
    let stand_ins = failing(&["rt", "cargo", "rustc"]);
    let mut call = copy.call(&["sheet"]);
    let printed = ended(stand_ins.before(call.arg(example("worked.job"))));
    assert_sheet(&printed);
    assert_eq!(stand_ins.started(), Vec::<String>::new());
}

#[test]
fn another_user_calls_a_project_that_can_not_be_written() {
    let copy = built();
    let job = fs::File::open(example("worked.job")).expect("the example is there");
    copy.set_modes("a-w");
    let printed = ended(held_back(copy.call(&["sheet"]).stdin(job)));
    copy.set_modes("u+w");
    assert_sheet(&printed);
}

#[test]
fn forty_calls_at_once_are_answered_alike() {
    let copy = built();
    let calls: Vec<Running> = (0..40)
        .map(|_| started(copy.call(&["sheet"]).arg(example("worked.job"))))
        .collect();
    for call in calls {
        assert_sheet(&call.ended());
    }
}

#[test]
fn eight_calls_at_once_while_a_build_is_due_are_answered_alike() {
    let copy = built();
    copy.touch("command/src/main.rs");
    let calls: Vec<Running> = (0..8)
        .map(|_| started(copy.call(&["sheet"]).arg(example("worked.job"))))
        .collect();
    for call in calls {
        assert_sheet(&call.ended());
    }
}

#[test]
fn a_missing_program_is_built_again() {
    let copy = built();
    copy.remove("target/program/leverbonnet");
    assert_sheet(&sheet(&copy));
}

#[test]
fn a_changed_source_is_built() {
    const SOURCE: &str = "command/src/trouble.rs";
    let copy = built();
    let source = copy.read(SOURCE);
    copy.write(SOURCE, &source.replace("REFUSED {} {}", "CHANGED {} {}"));
    let printed = ended(copy.call(&["sheet"]).arg(example("refused.job")));
    copy.write(SOURCE, &source);
    assert_eq!(printed.out, "CHANGED 5 167\n", "{printed:?}");
}

#[test]
fn a_source_that_can_not_be_compiled_is_told_with_its_log() {
    const SOURCE: &str = "command/src/trouble.rs";
    let copy = built();
    let source = copy.read(SOURCE);
    copy.write(SOURCE, "no Rust");
    let failed = sheet(&copy);
    copy.write(SOURCE, &source);
    failed.assert_one_sentence(1, "target/made/leverbonnet.log says why.");
    assert!(copy.read("target/made/leverbonnet.log").contains("no Rust"));
}

#[test]
fn it_is_found_behind_links() {
    let copy = built();
    let folder = Folder::new();
    symlink(copy.join("leverbonnet"), folder.join("far")).expect("it is ours");
    symlink("far", folder.join("near")).expect("it is ours");
    for link in ["far", "near"] {
        let mut command = outside(folder.join(link));
        assert_sheet(&ended(command.arg("sheet").arg(example("worked.job"))));
    }
    let mut command = outside("near");
    let path = format!("{}:{}", folder.display(), env::var("PATH").unwrap());
    command.env("PATH", path).arg("sheet");
    assert_sheet(&ended(command.arg(example("worked.job"))));
}

#[test]
fn a_path_for_cd_leaves_nothing_behind() {
    let copy = built();
    copy.touch("command/src/main.rs");
    let above = copy.parent().expect("it lies in a folder");
    let name = copy.file_name().expect("it has a name");
    let mut command = outside(PathBuf::from(name).join("leverbonnet"));
    let elsewhere = Folder::new();
    fs::create_dir(elsewhere.join(name)).expect("it is ours");
    command.current_dir(above).env("CDPATH", &*elsewhere);
    assert_sheet(&ended(command.arg("sheet").arg(example("worked.job"))));
    let left = fs::read_dir(elsewhere.join(name)).expect("it is ours");
    assert_eq!(left.count(), 0);
}

#[test]
fn a_file_is_found_from_where_the_caller_stands() {
    let copy = built();
    copy.touch("command/src/main.rs");
    let mut call = copy.call(&["sheet", "worked.job"]);
    assert_sheet(&ended(call.current_dir(project().join("examples"))));
}

#[test]
fn an_output_that_can_not_be_written_is_told_built_or_due() {
    let copy = built();
    for (direction, reason) in [(">&-", "It is closed"), (">/dev/full", "No space left")] {
        for due in [false, true] {
            if due {
                copy.touch("command/src/main.rs");
            }
            let line = format!(r#""$0" "$@" {direction}"#);
            let mut command = outside("sh");
            command
                .env_remove("LEVERBONNET_LIB_DIR")
                .env_remove("RUSTC");
            command.args(["-c", &line]).arg(copy.join("leverbonnet"));
            let ended = ended(command.arg("sheet").arg(example("worked.job")));
            let sentence = format!("standard output can not be written: {reason}");
            ended.assert_one_sentence(1, &sentence);
        }
    }
}

#[test]
fn the_gate_is_started_without_a_build() {
    let copy = built();
    let gate = copy.read(".ci/run");
    copy.put_script(".ci/run", "echo gate; exit 7");
    copy.touch("crates.txt");
    let stand_ins = failing(&["rt"]);
    let answer = ended(stand_ins.before(&mut copy.call(&["test"])));
    copy.write(".ci/run", &gate);
    copy.write("target/made/library", "");
    assert_eq!(
        (answer.out.as_str(), answer.status),
        ("gate\n", 7),
        "{answer:?}"
    );
    assert_eq!(stand_ins.started(), Vec::<String>::new());
}

#[cfg(target_arch = "x86_64")]
#[test]
fn it_is_not_installed_over_itself() {
    let copy = built();
    let own = copy.read("leverbonnet");
    let refused = ended(copy.call(&["install"]).arg(&**copy));
    refused.assert_one_sentence(1, "is the project's own folder");
    assert_eq!(copy.read("leverbonnet"), own);
}

#[test]
fn words_that_need_no_proof_are_answered_before_any() {
    let copy = Copy::new();
    let stand_ins = failing(&["rt"]);
    for (words, status) in [
        (&["layout", "round", "x"][..], 1),
        (&["layout", "rect", "9", "24.05in", "30in"], 1),
        (&["sheet", "--frob"], 1),
        (&["frob"], 1),
        (&["test", "--help"], 0),
        (&["sheet", "--help"], 0),
        (&["--version"], 0),
        (&[], 0),
    ] {
        let answer = ended(stand_ins.before(&mut copy.call(words)));
        assert_eq!(answer.status, status, "{words:?}: {answer:?}");
        assert_eq!(answer.told.lines().count(), status as usize, "{answer:?}");
        assert_eq!(stand_ins.started(), Vec::<String>::new(), "{words:?}");
    }
    let mut call = copy.call(&["layout", "round", "6", "240", "250"]);
    assert_eq!(ended(stand_ins.before(&mut call)).status, 1);
    assert_ne!(stand_ins.started(), Vec::<String>::new());
}
