//! What is out of order is told, a sentence each, and nothing else is.

use std::fs;
use std::path::{Path, PathBuf};
use std::process::Command;

/// A project of one crate that is in order: a definition that a contract
/// names, a law that a proof cites, a theorem that the promises name.
const SPEC: &str = "\
-- What it is.
use Rattle.std.specs.Prelude.{leb}

-- the smaller of two
pub small : ℕ → ℕ
small n = leb n
";
const LAW: &str = "\
use Rattle.one.specs.A.{small}

pub law : small 1
law = refl

pub theorem : small 2
theorem = refl
";
const PROOF: &str = "\
use Rattle.one.proofs.Laws.{law}
use Rattle.one.proofs.f.Goals as goal

pub returns : goal.returns
returns c = law
";
const CODE: &str = "\
ghost use Rattle.one.specs.A.{small};

pub fn f(size: usize)
    ensures { result ≡ small size }
{
}
";
const PROMISES: &str = "| Theorem | Says |\n|---|---|\n| `theorem` | so |\n";

struct Project(PathBuf);

impl Project {
    fn new(name: &str) -> Project {
        let folder = format!("definitions-{}-{}", name, std::process::id());
        let project = Project(std::env::temp_dir().join(folder));
        project.write("crates/one/specs/A.antt", SPEC);
        project.write("crates/one/proofs/Laws.antt", LAW);
        project.write("crates/one/proofs/f/Answers.antt", PROOF);
        project.write("crates/one/src/lib.rt", CODE);
        project.write("docs/PROMISES.md", PROMISES);
        project
    }

    fn write(&self, path: &str, text: &str) {
        let path = self.0.join(path);
        fs::create_dir_all(path.parent().expect("a path in the project")).expect("a folder");
        fs::write(path, text).expect("a file");
    }

    fn complaints(&self) -> Vec<String> {
        definitions::complaints(&self.0).expect("a project that can be read")
    }
}

impl Drop for Project {
    fn drop(&mut self) {
        let _ = fs::remove_dir_all(&self.0);
    }
}

#[test]
fn order_is_silent() {
    let empty: [String; 0] = [];
    assert_eq!(Project::new("order").complaints(), empty);
}

#[test]
fn a_law_that_serves_nothing() {
    let project = Project::new("idle");
    let more = format!(
        "{}\nidle : small 3\nidle = law\n\nself_cited : small 4\nself_cited = self_cited\n",
        LAW
    );
    project.write("crates/one/proofs/Laws.antt", &more);
    assert_eq!(
        project.complaints(),
        [
            "`idle`, crates/one/proofs/Laws.antt, serves nothing.",
            "`self_cited`, crates/one/proofs/Laws.antt, serves nothing.",
        ]
    );
}

#[test]
fn a_theorem_that_no_table_names() {
    let project = Project::new("table");
    project.write("docs/PROMISES.md", "The `theorem` is only talked of.\n");
    assert_eq!(
        project.complaints(),
        ["`theorem`, crates/one/proofs/Laws.antt, serves nothing."]
    );
}

#[test]
fn a_table_of_other_things_names_no_theorem() {
    let project = Project::new("other");
    project.write(
        "docs/PROMISES.md",
        "| Function | Says |\n|---|---|\n| `theorem` | so |\n",
    );
    assert_eq!(
        project.complaints(),
        ["`theorem`, crates/one/proofs/Laws.antt, serves nothing."]
    );
}

#[test]
fn a_definition_that_only_shares_a_name_with_a_parameter() {
    let project = Project::new("parameter");
    let more = format!("{}\n-- idle\npub size : ℕ\nsize = 2\n", SPEC);
    project.write("crates/one/specs/A.antt", &more);
    assert_eq!(
        project.complaints(),
        ["`size`, crates/one/specs/A.antt, serves nothing."]
    );
}

#[test]
fn what_an_invariant_cites_serves() {
    let project = Project::new("invariant");
    let invariant = PROOF
        .replace("Goals", "Given")
        .replace("returns", "invariant-loop-i");
    project.write("crates/one/proofs/f/Answers.antt", "");
    let told = ["`law`, crates/one/proofs/Laws.antt, serves nothing."];
    assert_eq!(project.complaints(), told);
    project.write("crates/one/proofs/f/Invariants.antt", &invariant);
    assert_eq!(project.complaints(), [] as [&str; 0]);
}

#[test]
fn what_a_walk_through_the_code_cites_serves() {
    let project = Project::new("walk");
    let walk = PROOF.replace(
        "returns : goal.returns\nreturns c",
        "f_spec : statement\nf_spec",
    );
    project.write("crates/one/proofs/f/Answers.antt", "");
    project.write("crates/one/proofs/f/Proof.antt", &walk);
    assert_eq!(project.complaints(), [] as [&str; 0]);
}

#[test]
fn what_a_tactic_is_told_serves() {
    let project = Project::new("told");
    project.write("crates/one/proofs/f/Answers.antt", "");
    let told = CODE.replace(
        "pub fn",
        "#[tactic(auto, using(crate::proofs::Laws::law))]\npub fn",
    );
    project.write("crates/one/src/lib.rt", &told);
    assert_eq!(project.complaints(), [] as [&str; 0]);
}

#[test]
fn what_was_known_at_a_goal_is_used_behind_a_dot() {
    let project = Project::new("known");
    let known = PROOF.replace(
        "use Rattle.one.proofs.f.Goals as goal",
        "use Rattle.one.proofs.f.Goals as goal\nuse Rattle.one.proofs.f.Goals.{Else-a, Else-b}",
    );
    let known = known.replace(
        "returns c = law",
        "returns c = law (goal.at.returns c).Else-a",
    );
    project.write("crates/one/proofs/f/Answers.antt", &known);
    assert_eq!(
        project.complaints(),
        ["`Else-b` is imported by crates/one/proofs/f/Answers.antt and not used."]
    );
}

#[test]
fn what_is_handed_on_is_used() {
    let project = Project::new("handed");
    let handed = format!("pub use Rattle.std.specs.Prelude.{{eqb}}\n{}", SPEC);
    project.write("crates/one/specs/A.antt", &handed);
    assert_eq!(project.complaints(), [] as [&str; 0]);
}

#[test]
fn what_rt_makes_of_a_crate_is_not_read() {
    let project = Project::new("made");
    project.write("crates/one/out/rlib/one.rlib/specs/A.antt", SPEC);
    assert_eq!(project.complaints(), [] as [&str; 0]);
}

#[test]
fn the_program_says_it_and_fails() {
    let run = |project: &Path| {
        Command::new(env!("CARGO_BIN_EXE_definitions"))
            .arg(project)
            .output()
            .expect("it runs")
    };
    let project = Project::new("program");
    let quiet = run(&project.0);
    assert!(
        quiet.status.success() && quiet.stdout.is_empty(),
        "{:?}",
        quiet
    );
    project.write("docs/PROMISES.md", "");
    let told = run(&project.0);
    assert_eq!(told.status.code(), Some(1), "{:?}", told);
    assert_eq!(
        told.stdout,
        "`theorem`, crates/one/proofs/Laws.antt, serves nothing.\n".as_bytes()
    );
    let nowhere = run(Path::new("/nowhere"));
    assert_eq!(nowhere.status.code(), Some(1), "{:?}", nowhere);
    assert!(
        nowhere
            .stderr
            .starts_with(b"The definitions of /nowhere can not be read: "),
        "{:?}",
        nowhere
    );
}

#[test]
fn a_name_with_two_meanings() {
    let project = Project::new("doubled");
    project.write("crates/two/specs/B.antt", "pub small : ℕ\nsmall = 2\n");
    assert_eq!(
        project.complaints(),
        ["`small` is defined more than once: crates/one/specs/A.antt, crates/two/specs/B.antt."]
    );
}

#[test]
fn a_name_of_the_kit() {
    let project = Project::new("kit");
    project.write("crates/two/specs/B.antt", "pub leb : ℕ\nleb = 2\n");
    project.write(
        "docs/PROMISES.md",
        &PROMISES.replace("`theorem`", "`theorem`, `leb`"),
    );
    assert_eq!(
        project.complaints(),
        ["`leb`, crates/two/specs/B.antt, is a name of the kit's libraries."]
    );
}

#[test]
fn imports_that_are_not_used_or_doubled() {
    let project = Project::new("imports");
    let doubled = SPEC.replace(
        "use Rattle.std.specs.Prelude.{leb}\n",
        "use Rattle.std.specs.Prelude.{leb}\nuse Rattle.std.specs.Prelude.{eqb}\n",
    );
    project.write("crates/one/specs/A.antt", &doubled);
    assert_eq!(
        project.complaints(),
        [
            "crates/one/specs/A.antt imports `Rattle.std.specs.Prelude` twice.",
            "`eqb` is imported by crates/one/specs/A.antt and not used.",
        ]
    );
}

#[test]
fn an_operator_is_used_where_its_sign_stands() {
    let project = Project::new("operators");
    let added = SPEC
        .replace(
            "use Rattle.std.specs.Prelude.{leb}\n",
            "use Rattle.std.specs.Prelude.{leb, [], ◌+◌, ◌-◌}\n",
        )
        .replace("leb n", "leb (n + 1)");
    project.write("crates/one/specs/A.antt", &added);
    assert_eq!(
        project.complaints(),
        ["`◌-◌` is imported by crates/one/specs/A.antt and not used."]
    );
}

#[test]
fn a_project_that_can_not_be_read() {
    assert!(definitions::complaints(Path::new("/nowhere")).is_err());
}
