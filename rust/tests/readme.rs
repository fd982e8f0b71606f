//! What README prints is what stands in the files: the two example programs, the
//! worked job's sheet in words, the refused job's sentence; what is said of a factor
//! that moved; findings explained, and the numbers worked by hand; and the figure, its
//! steps, its bytes and what comes of it.

use std::process::{self, Command};
use std::{env, fs};

use leverbonnet::field::{CERTIFICATE, HEADER, POINT, RUN, SEGMENT, WEIGHING};
use leverbonnet::{Class, Finding, Refusal};

const README: &str = include_str!("../../README.md");
const MADE_UP: &[u8] = include_bytes!("../../examples/made-up.fig");

fn assert_printed(text: &str, language: &str) {
    let block = format!("\n```{language}\n{text}```\n");
    assert!(README.contains(&block), "{block}");
}

/// Asserts that a table has that row.
fn assert_row(row: &str) {
    assert!(README.contains(&format!("\n{row}\n")), "{row}");
}

#[test]
fn the_example_programs() {
    assert_printed(include_str!("../../c/runs.c"), "c");
    assert_printed(include_str!("../examples/runs.rs"), "rust");
}

#[test]
fn the_sheets_in_words() {
    assert_printed(include_str!("../../examples/worked.words"), "");
    let refused = include_str!("../../examples/refused.words");
    let asked = "$ ./leverbonnet sheet --words examples/refused.job\n";
    assert_printed(&format!("{asked}{refused}"), "");
}

#[test]
fn a_factor_that_moved_in_either_version() {
    let [note, fault] = [Class::Note, Class::Fault].map(|class| Finding {
        rule: 5,
        class,
        place: 0,
    });
    assert_printed(&format!("{note}\n{fault}\n"), "");
}

const SEVERAL_EXPLAINED: &str = include_str!("../../examples/several-runs.explained");
const WRONG_EXPLAINED: &str = include_str!("../../examples/made-up/wrong-points.explained");

/// The run of that number in the text of a job explained.
fn explained_run(text: &str, run: u16) -> String {
    let mut runs = text.split("RUN ");
    let start = format!("{run} ");
    let run = runs.find(|part| part.starts_with(&start));
    format!("RUN {}", run.expect("the job has that run"))
}

/// A finding of a run explained: its line, and those under it.
fn explained_findings(run: &str) -> Vec<(&str, Vec<&str>)> {
    let mut findings: Vec<(&str, Vec<&str>)> = vec![];
    for line in run.lines().skip(1) {
        match (line.starts_with(' '), findings.last_mut()) {
            (true, Some((_, under))) => under.push(line),
            _ => findings.push((line, vec![])),
        }
    }
    findings
}

#[test]
fn runs_explained() {
    let asked = "$ ./leverbonnet explain examples";
    let run = explained_run(SEVERAL_EXPLAINED, 20);
    assert_printed(&format!("{asked}/several-runs.job 20\n{run}"), "");
    let run = explained_run(SEVERAL_EXPLAINED, 3);
    let (first, _) = run.split_once("NOTE 5 0\n").expect("it has three findings");
    assert_printed(&format!("{asked}/several-runs.job 3 2 0\n{first}"), "");
    let run = explained_run(WRONG_EXPLAINED, 9);
    let words = "wrong-points.job 9 --figure examples/made-up.fig";
    assert_printed(&format!("{asked}/{words}\n{run}"), "");
}

#[test]
fn every_comparison_of_a_run_worked_by_hand() {
    let run = explained_run(SEVERAL_EXPLAINED, 20);
    for (finding, under) in explained_findings(&run) {
        let (compared, _) = under[0]
            .trim_start()
            .split_once("  ")
            .expect("it has words");
        let compared = compared.strip_prefix("COMPARED ").expect("it compares");
        let start = format!("\n| `{finding}` | {compared} | ");
        assert!(README.contains(&start), "{start}");
    }
}

#[test]
fn quotients_with_their_remainders() {
    let run = explained_run(SEVERAL_EXPLAINED, 999);
    let below = explained_findings(&run)
        .into_iter()
        .find(|(finding, _)| *finding == "FAULT 15 0");
    let (_, under) = below.expect("it is below 90 percent");
    assert_printed(&format!("{}\n", under[0]), "");
    let job = include_bytes!("../../examples/percent-limits.job");
    let above = leverbonnet::explanation_text(job, 4, 16, 0).expect("it is above 110 percent");
    let above = String::from_utf8(above).expect("it is text");
    let line = above.lines().nth(1).expect("it compares");
    assert_printed(&format!("{line}\n"), "");
}

#[test]
fn the_names_of_all_lines() {
    for line in leverbonnet::texts::LINES {
        let row = format!("\n| {} | {} | ", line.number, line.name);
        assert!(README.contains(&row), "{row}");
    }
}

/// A step of a figure: its least distance, and its points for either shape.
type Step = (u16, u8, u8);

/// The steps of the figure of the examples, by its two lists.
fn steps() -> [Vec<Step>; 2] {
    let steps = |bytes: &[u8]| {
        let steps = bytes.chunks_exact(4);
        let steps = steps.map(|step| (u16::from_le_bytes([step[0], step[1]]), step[2], step[3]));
        steps.collect()
    };
    let (last, next) = MADE_UP[5..].split_at(1 + 4 * usize::from(MADE_UP[5]));
    [steps(&last[1..]), steps(&next[1..])]
}

#[test]
fn the_steps_of_the_figure_in_diameters() {
    let cells = |step: Option<&Step>| match step {
        Some(&(least, round, rectangular)) => {
            let diameters = f64::from(least) / 100.0;
            format!("{diameters:.2} or more | {round} | {rectangular}")
        }
        None => "| |".into(),
    };
    let [last, next] = steps();
    for row in 0..last.len().max(next.len()) {
        let (last, next) = (cells(last.get(row)), cells(next.get(row)));
        assert_row(&format!("| {last} | | {next} |"));
    }
}

#[test]
fn the_bytes_of_the_figure() {
    let mut rows = vec![(3, "the mark, FIG".into()), (2, "the version, 1".into())];
    let lists = ["from the last", "to the next"];
    for (steps, list) in steps().iter().zip(lists) {
        rows.push((1, format!("{} steps {list} disturbance", steps.len())));
        rows.extend(steps.iter().map(|(least, round, rectangular)| {
            let points = format!("{round} points round, {rectangular} rectangular");
            (4, format!("from {least} hundredths of a diameter {points}"))
        }));
    }
    let mut place = 0;
    for (length, says) in rows {
        let bytes = MADE_UP[place..place + length].iter();
        let bytes: Vec<String> = bytes.map(|byte| format!("{byte:02x}")).collect();
        assert_row(&format!("| {place} | `{}` | {says} |", bytes.join(" ")));
        place += length;
    }
    assert_eq!(place, MADE_UP.len());
    assert!(README.contains(&format!("\n{place} bytes of `examples/made-up.fig`:\n")));
}

#[test]
fn the_shells_words_make_the_figure() {
    let words = README.split("\n```sh\n").nth(1).expect("they stand there");
    let (words, _) = words.split_once("\n```\n").expect("they end");
    let folder = env::temp_dir().join(format!("leverbonnet readme {}", process::id()));
    fs::create_dir(&folder).expect("a temporary folder can be made");
    let ended = Command::new("sh")
        .args(["-c", words])
        .current_dir(&folder)
        .status();
    let made = fs::read(folder.join("made-up.fig"));
    fs::remove_dir_all(&folder).expect("it is ours");
    assert!(ended.expect("sh can be started").success());
    assert_eq!(made.expect("it was made"), MADE_UP);
}

/// Each job with its plain sheets without the figure and by it.
const POINTS: [(&str, [&str; 2]); 2] = [
    (
        "fewer-points",
        [
            include_str!("../../examples/fewer-points.txt"),
            include_str!("../../examples/made-up/fewer-points.txt"),
        ],
    ),
    (
        "more-points",
        [
            include_str!("../../examples/more-points.txt"),
            include_str!("../../examples/made-up/more-points.txt"),
        ],
    ),
];

#[test]
fn the_verdicts_with_and_without_a_figure() {
    let mut block = String::new();
    for (job, texts) in POINTS {
        for (text, option) in texts.iter().zip(["", " --figure examples/made-up.fig"]) {
            let asked = format!("$ ./leverbonnet sheet examples/{job}.job{option}");
            block += &format!("{asked} | grep -v '^[0-9]'\n");
            let is_line = |line: &&str| line.starts_with(|first: char| first.is_ascii_digit());
            let verdicts = text.split_inclusive('\n').filter(|line| !is_line(line));
            block.extend(verdicts);
        }
    }
    assert_printed(&block, "");
}

/// The run's own parts of a job of version 1 with one segment and two weighings a run.
fn runs(job: &[u8]) -> Vec<&[u8]> {
    let mut runs = vec![];
    let mut start = HEADER.length + CERTIFICATE.length * usize::from(job[5]);
    while start < job.len() {
        let run = &job[start..start + RUN.length];
        let points = number(run, "number of points") as usize;
        start += RUN.length + points * POINT.length + SEGMENT.length + 2 * WEIGHING.length;
        runs.push(run);
    }
    runs
}

fn number(run: &[u8], name: &str) -> i64 {
    let field = RUN.field(name).expect("a run has it");
    let bytes = &run[field.at..field.at + field.holds.length()];
    field.holds.number(bytes).expect("it is a number")
}

/// The run of that number as the text has it.
fn verdict(text: &str, run: i64) -> &'static str {
    let accepted = format!("RUN {run} ACCEPTED\n");
    let void = format!("RUN {run} VOID\n");
    match (text.contains(&accepted), text.contains(&void)) {
        (true, false) => "ACCEPTED",
        (false, true) => "VOID by rule 9",
        _ => panic!("{text}"),
    }
}

/// Every stack of these jobs is 24.0 in wide.
#[test]
fn the_runs_that_a_figure_changes() {
    let jobs: [&[u8]; 2] = [
        include_bytes!("../../examples/fewer-points.job"),
        include_bytes!("../../examples/more-points.job"),
    ];
    for (job, (_, [without, by_figure])) in jobs.iter().zip(POINTS) {
        for run in runs(job) {
            let diameters = |name| number(run, name) as f64 / 240.0;
            let last = diameters("distance from the last disturbance");
            let next = diameters("distance to the next disturbance");
            let shape = ["round", "rectangular"][number(run, "shape") as usize - 1];
            let points = number(run, "number of points");
            let run = number(run, "run number");
            let start = format!("| {run} | {shape} | {last:.2} | {next:.2} | {points} | ");
            let (without, by_figure) = (verdict(without, run), verdict(by_figure, run));
            let end = format!(" | {without} | {by_figure} |");
            let mut lines = README.lines();
            let row = lines.find(|line| line.contains(&start) && line.ends_with(&end));
            assert!(row.is_some(), "{start}..{end}");
        }
    }
}

#[test]
fn a_figure_that_is_refused() {
    let refusal = Refusal {
        number: 14,
        place: 20,
    };
    let clause = refusal.in_figure(&MADE_UP[..20]);
    let asked = "$ head -c 20 examples/made-up.fig | ./leverbonnet sheet --words \
                 examples/fewer-points.job --figure -\n";
    let refused = format!("Refused: {clause} (14 at byte 20 of the figure).\n");
    assert_printed(&format!("{asked}{refused}"), "");
}
