//! `sheet --words`: each job for a person.

use crate::folder::{example, example_bytes, example_text, examples};
use crate::run::{ended, ended_with_input, leverbonnet, shell, Ended};

const GOOD: &str = "examples/worked.job";

fn in_words(words: &[&str]) -> Ended {
    ended(leverbonnet(&["sheet", "--words"]).args(words))
}

/// Each row of the plain sheet, `line value`, is a row here, with the point put in
/// and nothing else changed.
#[test]
fn the_words_hold_the_values_of_the_plain_sheet() {
    let jobs = examples("job").into_iter();
    for job in jobs.filter(|job| job != &example("refused.job")) {
        let plain = ended(leverbonnet(&["sheet"]).arg(&job)).out;
        let words = ended(leverbonnet(&["sheet", "--words"]).arg(&job)).out;
        let plain: Vec<&str> = plain.lines().collect();
        let words: Vec<String> = words
            .lines()
            .filter(|line| !line.is_empty())
            .map(as_plain)
            .collect();
        assert_eq!(words, plain, "{}", job.display());
    }
}

/// A line in words as the plain sheet has it.
fn as_plain(line: &str) -> String {
    let words: Vec<&str> = line.split_whitespace().collect();
    match words[0] {
        "Run" => format!("RUN {} {}", words[1], words[3].trim_end_matches('.')),
        "Note" | "Fault" => finding_as_plain(line),
        number => {
            let (_, amount) = line[4..].trim_start().split_once("  ").expect("two spaces");
            let amount = amount.split(' ').next().expect("an amount");
            format!("{number} {}", whole(amount))
        }
    }
}

fn finding_as_plain(line: &str) -> String {
    let (head, _) = line
        .split_once(':')
        .expect("a colon stands before the clause");
    let words: Vec<&str> = head.split([' ', ',']).collect();
    let place = if words.len() > 2 {
        words[words.len() - 1]
    } else {
        "0"
    };
    format!("{} {} {place}", words[0].to_uppercase(), words[1])
}

/// `-` for an absent line, else the digits without the point.
fn whole(amount: &str) -> String {
    if amount == "absent" {
        return "-".into();
    }
    let digits = amount.replace('.', "");
    let number: i64 = digits.parse().expect("digits, and a point");
    number.to_string()
}

#[test]
fn runs_have_a_blank_line_between_them_and_none_behind() {
    let text = in_words(&["examples/several-runs.job"]).out;
    let runs: Vec<&str> = text.split("\n\n").collect();
    assert_eq!(runs.len(), 9);
    assert!(runs.iter().all(|run| run.starts_with("Run ")));
    assert!(text.ends_with("percent.\n"), "{text}");
}

/// The two jobs hold the same records. Run 7 has a factor that moved by just 5
/// percent, runs 8 and 9 have factors that moved by more.
#[test]
fn a_factor_that_moved_is_told_by_the_version() {
    for (job, verdict, finding) in [
        (
            "moved-factor",
            "ACCEPTED",
            "Note 5: the meter's factor moved by more than 5 percent, and Y is the lower of the two.",
        ),
        (
            "moved-factor-version-2",
            "VOID",
            "Fault 5: the meter's factor moved by more than 5 percent, and Y is the earlier of the two.",
        ),
    ] {
        let text = in_words(&[&format!("examples/{job}.job")]).out;
        let runs: Vec<&str> = text.split("\n\n").collect();
        assert_eq!(runs.len(), 3, "{text}");
        assert!(runs[0].starts_with("Run 7 is ACCEPTED.\n") && !runs[0].contains(" 5: "));
        for (run, number) in runs[1..].iter().zip([8, 9]) {
            assert!(run.starts_with(&format!("Run {number} is {verdict}.\n")), "{run}");
            assert!(run.contains(&format!("\n{finding}\n")), "{run}");
        }
    }
}

#[test]
fn words_may_be_asked_for_behind_a_file() {
    let printed = ended(&mut leverbonnet(&["sheet", GOOD, "--words"]));
    assert_eq!(
        (printed.out, printed.status),
        (example_text("worked.words"), 0)
    );
}

#[test]
fn standard_input_is_read_too() {
    for words in [&[][..], &["-"], &["/dev/stdin"]] {
        let job = example_bytes("worked.job");
        let printed = ended_with_input(leverbonnet(&["sheet", "--words"]).args(words), &job);
        assert_eq!(
            (printed.out, printed.status),
            (example_text("worked.words"), 0)
        );
    }
}

#[test]
fn refused_jobs_are_one_sentence_on_either_output() {
    for (line, clause) in [
        (
            r#""$1" sheet --words </dev/null"#,
            "the file ends before the header is complete (1 at byte 0)",
        ),
        (
            r#""$1" sheet --words </dev/zero"#,
            "the mark is not SRJ (2 at byte 0)",
        ),
        (
            r#"head -c 100 examples/worked.job | "$1" sheet --words"#,
            "the file ends before the 1st run's 64 bytes are complete (1 at byte 100)",
        ),
        (
            r#"printf 'SRJ\2\0\0\0\1\0' | "$1" sheet --words"#,
            "the file ends before the 1st run's 67 bytes are complete (1 at byte 9)",
        ),
        (
            r#"printf 'SRJ\3\0\0\0\1\0' | "$1" sheet --words"#,
            "the version is 3 and not in its range, 1 or 2 (3 at byte 3)",
        ),
        (
            r#"cat examples/worked.job /dev/zero | "$1" sheet --words"#,
            "bytes are left over behind the last run (8 at byte 265)",
        ),
    ] {
        let refused = ended(&mut shell(line));
        assert_eq!(refused.out, format!("Refused: {clause}.\n"));
        let told = format!("leverbonnet: standard input: refused, {clause}.\n");
        assert_eq!((refused.told, refused.status), (told, 2));
    }
}

/// Where the proved calls go over a pipe and the program `calls` can't be asked.
#[cfg(not(all(target_arch = "x86_64", not(feature = "piped"))))]
#[test]
fn a_job_is_not_refused_where_the_calls_are_not_reached() {
    for calls in [None, Some("/missing/calls"), Some("true")] {
        let mut command = leverbonnet(&["sheet", "--words", GOOD]);
        command.env_remove("LEVERBONNET_CALLS");
        command.envs(calls.map(|calls| ("LEVERBONNET_CALLS", calls)));
        let sentence = format!("{GOOD}: the proved calls can not be reached: ");
        ended(&mut command).assert_one_sentence(1, &sentence);
    }
}
