//! Programs that can not be asked, over the one pipe of this process.

#![cfg(not(all(target_arch = "x86_64", not(feature = "piped"))))]

use std::env;
use std::fs;
use std::path::PathBuf;
use std::process;
use std::sync::{Mutex, MutexGuard, PoisonError};

use leverbonnet::{pipe, run_numbers, Error};

const VARIABLE: &str = "LEVERBONNET_CALLS";

/// Shell's words for the answer to a call that writes nothing: success with 1.
const ANSWER_ONE: &str = r"printf '\1\0\0\0\0\0\0\0'";

/// The pipe and the variable are the whole process's: one test at a time.
fn alone() -> MutexGuard<'static, ()> {
    static ALONE: Mutex<()> = Mutex::new(());
    let guard = ALONE.lock().unwrap_or_else(PoisonError::into_inner);
    pipe::end();
    guard
}

/// Why the typed call was not made.
fn unreached() -> String {
    match run_numbers(&[]) {
        Err(Error::Unreached(why)) => why,
        other => panic!("{other:?}"),
    }
}

/// A file of this test's own, not there yet.
fn new_file(name: &str) -> PathBuf {
    let path = env::temp_dir().join(format!("leverbonnet {} {name}", process::id()));
    let _ = fs::remove_file(&path);
    path
}

/// The processes that this one started and has not waited for.
fn children() -> usize {
    let own = process::id().to_string();
    let stats = fs::read_dir("/proc").unwrap().filter_map(|process| {
        let stat = process.unwrap().path().join("stat");
        fs::read_to_string(stat).ok()
    });
    // After the name in parentheses: the state, then the parent.
    stats
        .filter(|stat| {
            let after = stat.rsplit(')').next().unwrap();
            after.split_whitespace().nth(1) == Some(&own)
        })
        .count()
}

#[test]
fn a_program_that_is_not_named() {
    let _alone = alone();
    env::remove_var(VARIABLE);
    assert_eq!(
        unreached(),
        "the program calls is not named: LEVERBONNET_CALLS is not set"
    );
}

#[test]
fn a_program_that_is_not_there() {
    let _alone = alone();
    env::set_var(VARIABLE, "/nowhere/calls");
    assert!(unreached().contains("there is no program /nowhere/calls"));
    env::set_var(VARIABLE, "no-such-program-calls");
    assert!(unreached().starts_with("no-such-program-calls "));
}

#[test]
fn a_program_that_dies_is_told_and_not_left_behind() {
    let _alone = alone();
    let before = children();
    env::set_var(VARIABLE, "sh\n-c\nexit 3");
    assert!(unreached().contains("ended with exit status: 3"));
    env::set_var(VARIABLE, "sh\n-c\nkill -9 $$");
    assert!(unreached().contains("ended with signal: 9"));
    assert_eq!(children(), before);
}

#[test]
fn a_program_that_is_ended_is_not_left_behind() {
    let _alone = alone();
    let before = children();
    env::set_var(VARIABLE, format!("sh\n-c\n{ANSWER_ONE}; cat >/dev/null"));
    assert_eq!(pipe::run_count(&[]), Ok(1));
    assert_eq!(children(), before + 1);
    pipe::end();
    assert_eq!(children(), before);
}

#[test]
fn a_program_that_died_is_started_again_at_the_next_call() {
    let _alone = alone();
    let died = new_file("died once");
    // It answers once it has died.
    let script = format!(r#"if [ -e "$0" ]; then {ANSWER_ONE}; else : >"$0"; fi"#);
    env::set_var(VARIABLE, format!("sh\n-c\n{script}\n{}", died.display()));
    let (first, second) = (pipe::run_count(&[]), pipe::run_count(&[]));
    fs::remove_file(died).unwrap();
    assert!(first.is_err());
    assert_eq!(second, Ok(1));
}
