//! How `./leverbonnet` builds, seen by stand-ins for all that it starts: rt
//! proves nothing, cargo has its programs ready, and uname names any processor.

use std::collections::BTreeSet;
use std::ffi::OsString;
use std::fs::{self, File};
use std::io::Read;
use std::process::{Command, Stdio};
use std::thread;
use std::time::{Duration, Instant};

use crate::copy::{outside, path_of, Copy, StandIns};
use crate::run::{ended, ended_with_input, started, Ended};
use crate::user::held_back;

/// Says what rt says of the crate that it stands in, and makes what rt makes.
const RT: &str = r#"
crate=${PWD##*/}
echo "fn $crate::f: proved"
mkdir -p out
case "$1 $crate" in
"lib leverbonnet_c") echo library >out/libleverbonnet_c.a ;;
"run calls") [ -f out/calls ] || echo calls >out/calls ;;
esac"#;

/// The program to build is cargo's last word.
const CARGO: &str = r#"
for program; do :; done
mkdir -p target/cargo/release
cp "$stand_ins/ready/$program" target/cargo/release/"#;

/// Says with which words it was started, and what it reads.
const PROGRAM: &str = r#"echo "program $*"; cat"#;

const FOR_THE_PROGRAM: &str = "exit 100";

/// All that is started before anything is built.
const NEEDED: [&str; 11] = [
    "timeout", "readlink", "dirname", "uname", "find", "mkdir", "flock", "cargo", "rustc", "cc",
    "rt",
];

struct Workshop {
    copy: Copy,
    stand_ins: StandIns,
}

impl Workshop {
    /// A copy with nothing built, on such a processor. Of the kit there is what
    /// its programs are run with, and on the PATH is the emulator.
    fn on(processor: &str) -> Self {
        let stand_ins = StandIns::new();
        put_rt(&stand_ins, RT);
        stand_ins.put("cargo", CARGO);
        // Only looked for. The machine's own may lie where nobody may look.
        for tool in ["rustc", "cc"] {
            stand_ins.put_quiet(tool, "");
        }
        stand_ins.put_quiet("uname", &format!("echo {processor}"));
        stand_ins.put_quiet("ready/judge", FOR_THE_PROGRAM);
        stand_ins.put_quiet("ready/leverbonnet", PROGRAM);
        for tool in ["kit/toolchain/lib/ld-linux-x86-64.so.2", "qemu-x86_64"] {
            stand_ins.put_quiet(tool, "");
        }
        let copy = Copy::new();
        Workshop { copy, stand_ins }
    }

    fn new() -> Self {
        Workshop::on("x86_64")
    }

    /// The same with everything built.
    fn built() -> Self {
        let workshop = Workshop::new();
        workshop.assert_answers();
        workshop.stand_ins.started();
        workshop
    }

    fn call(&self) -> Command {
        let mut command = self.copy.call(&["sheet", "a b"]);
        self.stand_ins.before(&mut command);
        command.env("RATTLE_HOME", self.stand_ins.join("kit"));
        command
    }

    /// What a call tells, whose program is built and answers.
    fn assert_answers(&self) -> String {
        let answer = ended(&mut self.call());
        let expected = ("program sheet a b\n", 0);
        assert_eq!((answer.out.as_str(), answer.status), expected, "{answer:?}");
        answer.told
    }

    /// Which of rt, cargo for the judge and cargo for the program a call
    /// starts.
    fn started_by_a_call(&self) -> Vec<&'static str> {
        self.stand_ins.started();
        self.assert_answers();
        let name = |line: &String| match line {
            line if line.starts_with("rt ") => "rt",
            line if line.ends_with(" judge") => "judge",
            _ => "program",
        };
        let mut names: Vec<&str> = self.stand_ins.started().iter().map(name).collect();
        names.dedup();
        names
    }

    /// What rt was told since anybody last asked.
    fn proofs_started(&self) -> Vec<String> {
        let mut started = self.stand_ins.started();
        started.retain(|line| line.starts_with("rt "));
        started
    }

    /// A call that finds all that it needs but this.
    fn without(&self, missing: &str) -> Ended {
        let path = path_of(NEEDED.into_iter().filter(|tool| *tool != missing));
        ended(self.copy.call(&["sheet"]).env("PATH", &*path))
    }
}

/// An rt that writes down its words and the crate that it stands in, before it
/// does what the script says.
fn put_rt(stand_ins: &StandIns, script: &str) {
    let line = r#"stand_ins=$(dirname -- "$0"); echo "rt $* of ${PWD##*/}" >>"$stand_ins/started""#;
    stand_ins.put_quiet("rt", &format!("{line}\n{script}"));
}

/// The crates of crates.txt from its top, each with those that it names.
fn listed(copy: &Copy) -> Vec<(String, Vec<String>)> {
    let text = copy.read("crates.txt");
    let lines = text.lines().filter(|line| !line.starts_with('#'));
    lines
        .filter_map(|line| line.split_once(':'))
        .map(|(name, used)| {
            let name = name.split_whitespace().next().expect("it has a name");
            let used = used.split_whitespace().map(str::to_string);
            (name.to_string(), used.collect())
        })
        .collect()
}

/// Those of crates.txt that this one rests on, and itself, from the top.
fn rested_on(copy: &Copy, last: &str) -> Vec<String> {
    let mut needed = BTreeSet::from([last.to_string()]);
    for (name, used) in listed(copy).into_iter().rev() {
        if needed.contains(&name) {
            needed.extend(used);
        }
    }
    let all = listed(copy).into_iter().map(|(name, _)| name);
    all.filter(|name| needed.contains(name)).collect()
}

#[test]
fn every_crate_names_only_crates_above_it() {
    let copy = Copy::new();
    let mut above = BTreeSet::new();
    for (name, used) in listed(&copy) {
        assert!(used.iter().all(|used| above.contains(used)), "{name}");
        above.insert(name);
    }
}

#[test]
fn every_crate_is_told_as_it_is_proved() {
    let workshop = Workshop::new();
    let crates = rested_on(&workshop.copy, "leverbonnet_c");
    let total = crates.len();
    let mut expected = vec![
        "leverbonnet: proves what is not proved yet, which may take some minutes.".to_string(),
    ];
    for (index, name) in crates.iter().enumerate() {
        let line = format!("leverbonnet: proved {} of {total}: {name}", index + 1);
        expected.push(line);
    }
    let told = workshop.assert_answers();
    let without_seconds = told.lines().map(|line| match line.strip_suffix(" s)") {
        Some(line) => line.trim_end_matches(|c: char| c.is_ascii_digit()),
        None => line,
    });
    let told: Vec<&str> = without_seconds
        .map(|line| line.strip_suffix(" (").unwrap_or(line))
        .collect();
    assert_eq!(told, expected);
}

#[test]
fn everything_below_the_library_is_proved_and_then_the_library() {
    let workshop = Workshop::new();
    let crates = rested_on(&workshop.copy, "leverbonnet_c");
    assert!(crates.contains(&"leverbonnet".to_string()));
    workshop.assert_answers();
    let expected = crates.iter().map(|name| format!("rt lib of {name}"));
    assert_eq!(workshop.proofs_started(), expected.collect::<Vec<_>>());
}

#[test]
fn all_that_rt_says_is_kept() {
    let workshop = Workshop::new();
    workshop.assert_answers();
    let log = workshop.copy.read("target/made/library.log");
    assert!(log.starts_with("fn arith::f: proved\n"), "{log}");
    assert!(log.ends_with("fn leverbonnet_c::f: proved\n"), "{log}");
}

#[test]
fn a_built_project_starts_nothing() {
    let workshop = Workshop::built();
    assert_eq!(workshop.started_by_a_call(), Vec::<&str>::new());
}

#[test]
fn what_changed_decides_what_is_built() {
    let workshop = Workshop::built();
    for (source, expected) in [
        ("command/src/main.rs", &["program"][..]),
        ("rust/src/lib.rs", &["program"]),
        ("Cargo.lock", &["program"]),
        ("scripts/run-program", &["program"]),
        ("words/src/lib.rs", &["judge", "program"]),
        ("crates/arith/src/lib.rt", &["rt", "program"]),
        ("crates.txt", &["rt", "program"]),
        ("crates/arith/out/kept", &[]),
        ("README.md", &[]),
    ] {
        workshop.copy.touch(source);
        assert_eq!(workshop.started_by_a_call(), expected, "{source}");
        assert_eq!(workshop.started_by_a_call(), Vec::<&str>::new(), "{source}");
    }
}

#[test]
fn a_source_that_was_deleted_is_seen() {
    let workshop = Workshop::built();
    workshop.copy.remove("crates/arith/src/lib.rt");
    assert_eq!(workshop.started_by_a_call(), ["rt", "program"]);
}

#[test]
fn what_is_missing_is_made_again() {
    let workshop = Workshop::built();
    for (product, expected) in [
        ("target/program/leverbonnet", &["program"][..]),
        ("target/staticlib/libleverbonnet.a", &["rt", "program"]),
        ("target/made/library", &["rt", "program"]),
    ] {
        workshop.copy.remove(product);
        // The library is looked at only where the program is due.
        workshop.copy.touch("command/src/main.rs");
        assert_eq!(workshop.started_by_a_call(), expected, "{product}");
    }
}

#[test]
fn a_source_changed_during_a_build_leaves_the_program_due() {
    let workshop = Workshop::built();
    for (tool, script, source, expected) in [
        ("cargo", CARGO, "command/src/main.rs", &["program"][..]),
        ("rt", RT, "crates/arith/src/lib.rt", &["rt", "program"]),
    ] {
        let put = |script: &str| match tool {
            "rt" => put_rt(&workshop.stand_ins, script),
            _ => workshop.stand_ins.put(tool, script),
        };
        workshop.copy.touch(source);
        // A moment after the start, so that the two times differ.
        let path = workshop.copy.join(source);
        let changing = format!("sleep 0.05; touch '{}'\n{script}", path.display());
        put(&changing);
        assert_eq!(workshop.started_by_a_call(), expected);
        put(script);
        assert_eq!(workshop.started_by_a_call(), expected, "{tool}");
        assert_eq!(workshop.started_by_a_call(), Vec::<&str>::new());
    }
}

#[test]
fn calls_at_once_build_once() {
    let workshop = Workshop::new();
    workshop
        .stand_ins
        .put("cargo", &format!("sleep 0.3\n{CARGO}"));
    let calls: Vec<_> = (0..8).map(|_| started(&mut workshop.call())).collect();
    let waited = calls
        .into_iter()
        .map(|call| call.ended())
        .inspect(|answer| assert_eq!(answer.out, "program sheet a b\n", "{answer:?}"))
        .filter(|answer| {
            answer
                .told
                .contains("leverbonnet: waits until another call")
        });
    assert!(waited.count() > 0);
    let started = workshop.stand_ins.started();
    let built = |name: &str| started.iter().filter(|line| line.ends_with(name)).count();
    assert_eq!((built(" judge"), built(" --bin leverbonnet")), (1, 1));
    assert_eq!(built("rt lib of leverbonnet_c"), 1);
}

#[test]
fn a_call_waits_while_the_folder_is_locked() {
    let workshop = Workshop::built();
    workshop.copy.touch("command/src/main.rs");
    let mut holder = Command::new("flock")
        .arg(&*workshop.copy)
        .args(["sh", "-c", "echo held; cat"])
        .stdin(Stdio::piped())
        .stdout(Stdio::piped())
        .spawn()
        .expect("flock can be started");
    let mut held = [0; 5];
    let out = holder.stdout.as_mut().expect("it is piped");
    out.read_exact(&mut held)
        .expect("it says that it holds the lock");
    let told = workshop.stand_ins.join("told");
    let file = File::create(&told).expect("it is ours");
    let call = started(workshop.call().stderr(file));
    let waits = "leverbonnet: waits until another call or the gate is done building.\n";
    wait_until(|| fs::read_to_string(&told).expect("it is ours") == waits);
    assert_eq!(workshop.stand_ins.started(), Vec::<String>::new());
    drop(holder.stdin.take());
    holder.wait().expect("it ends without its input");
    assert_eq!(call.ended().out, "program sheet a b\n");
}

fn wait_until(holds: impl Fn() -> bool) {
    let began = Instant::now();
    while !holds() {
        assert!(
            began.elapsed() < Duration::from_secs(60),
            "it does not come"
        );
        thread::sleep(Duration::from_millis(10));
    }
}

#[test]
fn the_program_does_not_hold_the_lock() {
    let workshop = Workshop::new();
    let free = r#"flock -n "$LEVERBONNET_PROJECT" echo free || echo held; ls /proc/self/fd"#;
    workshop.stand_ins.put_quiet("ready/leverbonnet", free);
    let mut call = workshop.call();
    let answer = ended(&mut call);
    assert!(answer.out.starts_with("free\n"), "{answer:?}");
    assert!(
        !answer.out.lines().any(|line| ["8", "9"].contains(&line)),
        "{answer:?}"
    );
}

#[test]
fn neither_rt_nor_cargo_reads_the_callers_input() {
    let workshop = Workshop::new();
    put_rt(&workshop.stand_ins, &format!("cat\n{RT}"));
    workshop.stand_ins.put("cargo", &format!("cat\n{CARGO}"));
    let answer = ended_with_input(&mut workshop.call(), b"the job");
    assert_eq!(answer.out, "program sheet a b\nthe job", "{answer:?}");
}

#[test]
fn closed_descriptors_do_not_disturb_a_build() {
    let workshop = Workshop::new();
    let closing = r#"exec "$0" "$@" <&- >&- 2>&-"#;
    workshop.stand_ins.put_quiet(
        "ready/leverbonnet",
        r#"echo "program $*" >"$LEVERBONNET_PROJECT/answer""#,
    );
    let mut command = outside("sh");
    command
        .args(["-c", closing])
        .arg(workshop.copy.join("leverbonnet"))
        .arg("sheet");
    assert_eq!(ended(workshop.stand_ins.before(&mut command)).status, 0);
    assert_eq!(workshop.copy.read("answer"), "program sheet\n");
}

#[test]
fn the_judges_answer_is_the_answer() {
    let workshop = Workshop::new();
    workshop
        .stand_ins
        .put_quiet("ready/judge", "echo judged; exit 3");
    let answer = ended(&mut workshop.call());
    assert_eq!((answer.out.as_str(), answer.status), ("judged\n", 3));
    let started = workshop.stand_ins.started();
    assert_eq!(started.len(), 1, "{started:?}");
    assert!(started[0].ends_with("--bin judge"), "{started:?}");
}

#[test]
fn a_proof_that_fails_is_told_with_its_log_and_tried_again() {
    let workshop = Workshop::new();
    let failing = "echo 'fn arith::f: no proof'; exit 1";
    put_rt(&workshop.stand_ins, failing);
    for _ in 0..2 {
        let failed = ended(&mut workshop.call());
        assert_eq!((failed.out.as_str(), failed.status), ("", 1));
        let last = failed.told.lines().last().expect("something is told");
        assert!(
            last.ends_with("target/made/library.log says why."),
            "{last}"
        );
        let log = workshop.copy.read("target/made/library.log");
        assert!(log.contains("fn arith::f: no proof"), "{log}");
        assert_eq!(workshop.proofs_started().len(), 1);
    }
    put_rt(&workshop.stand_ins, RT);
    workshop.assert_answers();
}

#[test]
fn a_library_that_fails_after_its_proofs_is_told() {
    let workshop = Workshop::new();
    let failing = format!("[ \"${{PWD##*/}}\" != leverbonnet_c ] || exit 1\n{RT}");
    put_rt(&workshop.stand_ins, &failing);
    assert_eq!(ended(&mut workshop.call()).status, 1);
    assert!(!workshop.copy.join("target/made/library").exists());
}

#[test]
fn a_build_that_fails_is_told_with_its_log() {
    let workshop = Workshop::built();
    workshop.copy.touch("command/src/main.rs");
    workshop
        .stand_ins
        .put("cargo", "echo 'error: it does not compile' >&2; exit 101");
    let failed = ended(&mut workshop.call());
    failed.assert_one_sentence(1, "target/made/leverbonnet.log says why.");
    let log = workshop.copy.read("target/made/leverbonnet.log");
    assert_eq!(log, "error: it does not compile\n");
}

#[test]
fn a_missing_tool_is_named() {
    let workshop = Workshop::new();
    for tool in ["cargo", "rustc", "cc", "flock"] {
        let sentence = format!("{tool} is missing: it is not on the PATH");
        workshop.without(tool).assert_one_sentence(1, &sentence);
    }
}

#[test]
fn a_missing_kit_is_named_once_the_words_are_judged() {
    let workshop = Workshop::built();
    workshop.copy.touch("crates.txt");
    let sentence = "rt is missing: it is not on the PATH, and without the Rattle kit";
    workshop.without("rt").assert_one_sentence(1, sentence);
}

#[test]
fn a_folder_that_can_not_be_written_is_told_where_a_build_is_due() {
    let workshop = Workshop::built();
    workshop.copy.touch("command/src/main.rs");
    workshop.copy.set_modes("a-w");
    let failed = ended(held_back(&mut workshop.call()));
    workshop.copy.set_modes("u+w");
    failed.assert_one_sentence(1, "the program is missing or older than its sources, and ");
    assert!(
        failed.told.ends_with("/target can not be written.\n"),
        "{failed:?}"
    );
}

#[test]
fn on_another_processor_the_program_is_told_how_the_calls_are_made() {
    let workshop = Workshop::on("aarch64");
    let telling = r#"printf '%s\n' "$LEVERBONNET_CALLS""#;
    workshop.stand_ins.put_quiet("ready/leverbonnet", telling);
    let expected = format!(
        "{0}/qemu-x86_64\n{0}/kit/toolchain/lib/ld-linux-x86-64.so.2\n--library-path\n\
         {0}/kit/toolchain/lib\n{1}\n",
        workshop.stand_ins.display(),
        workshop.copy.join("crates/calls/out/calls").display()
    );
    // The second call finds everything built.
    for _ in 0..2 {
        let answer = ended(&mut workshop.call());
        assert_eq!((&answer.out, answer.status), (&expected, 0), "{answer:?}");
    }
    let mut crates = rested_on(&workshop.copy, "calls");
    assert_eq!(crates.pop().as_deref(), Some("calls"));
    let mut expected: Vec<String> = crates
        .iter()
        .map(|name| format!("rt lib of {name}"))
        .collect();
    expected.push("rt run of calls".to_string());
    assert_eq!(workshop.proofs_started(), expected);
}

#[test]
fn on_another_processor_missing_calls_are_made_again() {
    let workshop = Workshop::on("aarch64");
    workshop.assert_answers();
    for product in ["crates/calls/out/calls", "target/program/calls"] {
        workshop.copy.remove(product);
        workshop.assert_answers();
        assert!(workshop.copy.join(product).exists(), "{product}");
    }
}

#[test]
fn on_another_processor_a_missing_emulator_is_named() {
    let workshop = Workshop::on("aarch64");
    workshop.assert_answers();
    workshop.stand_ins.remove("qemu-x86_64");
    let mut path = OsString::from(workshop.stand_ins.as_os_str());
    let tools = path_of(["timeout", "dirname"].into_iter());
    path.push(":");
    path.push(&*tools);
    let mut command = outside(workshop.copy.join("scripts/run-program"));
    command.args(["--print", "calls"]).env("PATH", path);
    command.env("RATTLE_HOME", workshop.stand_ins.join("kit"));
    let told = ended(&mut command);
    let sentence = "qemu-x86_64 is missing: it is not on the PATH, and without it no program";
    assert!(told.told.starts_with(sentence), "{told:?}");
    assert!(told.told.contains("the package qemu-user"), "{told:?}");
    assert_eq!((told.out.as_str(), told.status), ("", 1));
}
