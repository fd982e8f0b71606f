//! The lengths here and in the C header are those that the crates are proved with.

use leverbonnet::field::{FIGURE_HEADER, STEP, STEPS};
use leverbonnet::{
    CONDITION_LENGTH, DAY_LENGTH, FINDING_LENGTH, LINES_LENGTH, LINE_LENGTH, MOST_EXPLANATION,
    MOST_EXPLANATION_TEXT, MOST_FINDINGS, MOST_TEXT,
};

const HEADER: &str = include_str!("../../include/leverbonnet.h");
const LONGEST: &[u8] = include_bytes!("../../examples/longest-version-2.job");

fn assert_holds(text: &str, line: &str) {
    assert!(text.lines().any(|found| found == line), "{line}");
}

#[test]
fn of_a_line_and_of_all_lines() {
    assert_holds(
        HEADER,
        &format!("#define LEVERBONNET_LINE_BYTES {LINE_LENGTH}"),
    );
    let count = LINES_LENGTH / LINE_LENGTH;
    assert_holds(
        HEADER,
        &format!("#define LEVERBONNET_LINES_BYTES ({count} * LEVERBONNET_LINE_BYTES)"),
    );
}

#[test]
fn of_the_findings() {
    let definition = include_str!("../../crates/findings/specs/Listing.antt");
    assert_holds(definition, &format!("most_findings = {MOST_FINDINGS}"));
    assert_holds(
        HEADER,
        &format!("#define LEVERBONNET_FINDING_BYTES {FINDING_LENGTH}"),
    );
    assert_holds(
        HEADER,
        &format!(
            "#define LEVERBONNET_FINDINGS_BYTES_MOST ({MOST_FINDINGS} * LEVERBONNET_FINDING_BYTES)"
        ),
    );
}

#[test]
fn of_a_text() {
    let theorems = include_str!("../../crates/printing/proofs/Lengths.antt");
    assert_holds(
        theorems,
        &format!(
            "pub text_most : (fig : Figure) (s : List ℕ) → length (job_text fig s) ≤ {MOST_TEXT}"
        ),
    );
    assert_holds(
        HEADER,
        &format!("#define LEVERBONNET_TEXT_BYTES_MOST {MOST_TEXT}"),
    );
}

#[test]
fn of_an_explanation() {
    assert_holds(
        include_str!("../../crates/reviewing/specs/Numbers.antt"),
        &format!(
            "    → length (written Bytes (explanation v fig f n r rule place)) ≤ {MOST_EXPLANATION}"
        ),
    );
    assert_holds(
        include_str!("../../crates/explanations/proofs/Lengths.antt"),
        &format!(
            "pub written_short : (form : Form) (e : Explanation) → length (written form e) ≤ {MOST_EXPLANATION_TEXT}"
        ),
    );
    for (name, length) in [
        ("CONDITION_BYTES", CONDITION_LENGTH),
        ("DAY_BYTES", DAY_LENGTH),
        ("EXPLANATION_BYTES_MOST", MOST_EXPLANATION),
        ("EXPLANATION_TEXT_BYTES_MOST", MOST_EXPLANATION_TEXT),
    ] {
        assert_holds(HEADER, &format!("#define LEVERBONNET_{name} {length}"));
    }
}

#[test]
fn of_a_job() {
    let definition = include_str!("../../crates/job/specs/Places.antt");
    let longest = LONGEST.len();
    assert_holds(definition, &format!("longest_job = {longest}"));
    assert_holds(
        HEADER,
        &format!("#define LEVERBONNET_JOB_BYTES_MOST {longest}"),
    );
}

#[test]
fn of_a_figure() {
    let range = STEPS.fields[0].range.split_once(" to ");
    let (_, most_steps) = range.expect("a range has ends");
    let most_steps: usize = most_steps.parse().expect("an end is a number");
    let longest = FIGURE_HEADER.length + 2 * (STEPS.length + most_steps * STEP.length);
    let definition = include_str!("../../crates/figures/specs/Figures.antt");
    assert_holds(definition, &format!("longest_figure = {longest}"));
    assert_holds(
        HEADER,
        &format!("#define LEVERBONNET_FIGURE_BYTES_MOST {longest}"),
    );
}
