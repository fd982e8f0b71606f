//! Findings explained: read from bytes, by the typed calls, and as text.

mod stored;

use std::fs;

use leverbonnet::{
    explain_finding, explain_finding_by_figure, explanation_text, explanation_text_by_figure,
    reduce_run, reduce_run_by_figure, run_numbers, CertificateDay, Class, Condition, Error,
    Explanation, Finding, Kind, Refusal, Side, Way, CONDITION_LENGTH, DAY_LENGTH,
};

const WORKED: &[u8] = include_bytes!("../../examples/worked.job");
const SEVERAL_RUNS: &[u8] = include_bytes!("../../examples/several-runs.job");
const PERCENT_LIMITS: &[u8] = include_bytes!("../../examples/percent-limits.job");
const FEWER_POINTS: &[u8] = include_bytes!("../../examples/fewer-points.job");
const MORE_POINTS: &[u8] = include_bytes!("../../examples/more-points.job");
const MADE_UP: &[u8] = include_bytes!("../../examples/made-up.fig");

fn compared(which: u8, left: i64, way: Way, right: i64) -> Condition {
    Condition {
        which,
        way,
        left,
        right,
        remainder: 0,
        remainder_limit: 0,
    }
}

fn day(kind: Kind, side: Side, day: impl Into<Option<u16>>) -> CertificateDay {
    let day = day.into();
    CertificateDay { kind, side, day }
}

#[test]
fn a_condition_from_its_bytes() {
    let numbers = [-2_i64, i64::MAX, 3, 0].map(i64::to_le_bytes);
    for (number, way) in [
        (1, Way::Below),
        (2, Way::Above),
        (3, Way::Equal),
        (4, Way::Differs),
        (5, Way::Differs),
    ] {
        let bytes = [&[2, number][..], &numbers.concat()].concat();
        let bytes: [u8; CONDITION_LENGTH] = bytes.try_into().unwrap();
        let condition = Condition {
            remainder: 3,
            ..compared(2, -2, way, i64::MAX)
        };
        assert_eq!(Condition::from_bytes(&bytes), condition);
    }
}

#[test]
fn a_certificate_day_from_its_bytes() {
    for (bytes, certificate_day) in [
        ([1, 1, 1, 0x28, 0x23], day(Kind::Meter, Side::Before, 9_000)),
        ([2, 2, 0, 0, 0], day(Kind::Pitot, Side::After, None)),
        ([3, 1, 1, 0, 0], day(Kind::Nozzle, Side::Before, 0)),
        ([9, 9, 9, 1, 0], day(Kind::Nozzle, Side::After, None)),
    ] {
        assert_eq!(CertificateDay::from_bytes(&bytes), certificate_day);
    }
}

#[test]
fn of_bytes_that_end_early_what_is_complete() {
    let mut bytes = vec![1, 2];
    bytes.extend([0; CONDITION_LENGTH + 2 * DAY_LENGTH]);
    for length in 0..=bytes.len() {
        let explanation = Explanation::from_bytes(&bytes[..length]);
        let behind_counts = length.saturating_sub(2);
        let conditions = usize::from(behind_counts >= CONDITION_LENGTH);
        let days = behind_counts.saturating_sub(CONDITION_LENGTH) / DAY_LENGTH;
        assert_eq!(explanation.conditions.len(), conditions, "of {length}");
        assert_eq!(explanation.days.len(), days, "of {length}");
    }
    assert!(Explanation::from_bytes(&[255; 70]).days.is_empty());
}

/// Asserts why the run of the job has that finding.
fn assert_explained(
    job: &[u8],
    run: u16,
    (rule, place): (u16, u16),
    conditions: &[Condition],
    days: &[CertificateDay],
) {
    let explanation = explain_finding(job, run, rule, place).unwrap();
    let name = format!("rule {rule} at {place} of run {run}");
    assert_eq!(explanation.conditions, conditions, "{name}");
    assert_eq!(explanation.days, days, "{name}");
}

#[test]
fn certificates_that_are_missing() {
    let meter = |before, after| {
        [
            day(Kind::Meter, Side::Before, before),
            day(Kind::Meter, Side::After, after),
        ]
    };
    // Nothing is certified of the meter of run 10, and the pitot tube of run 3 a day late.
    assert_explained(SEVERAL_RUNS, 10, (1, 0), &[], &meter(None, None));
    assert_explained(SEVERAL_RUNS, 10, (4, 0), &[], &meter(None, None));
    assert_explained(SEVERAL_RUNS, 999, (4, 0), &[], &meter(Some(9_020), None));
    let pitot = [
        day(Kind::Pitot, Side::Before, None),
        day(Kind::Pitot, Side::After, 8_990),
    ];
    assert_explained(SEVERAL_RUNS, 3, (2, 0), &[], &pitot);
}

#[test]
fn numbers_that_are_compared() {
    for (run, finding, conditions) in [
        (20, (8, 0), vec![compared(1, 50_000, Way::Below, 60_000)]),
        (20, (9, 0), vec![compared(1, 12, Way::Below, 25)]),
        (20, (10, 3), vec![compared(1, 119, Way::Below, 120)]),
        (20, (11, 3), vec![compared(1, 630_000, Way::Above, 360_000)]),
        (20, (17, 2), vec![compared(1, 600, Way::Above, 500)]),
        (11, (12, 0), vec![compared(1, 0, Way::Equal, 0)]),
        (13, (19, 0), vec![compared(1, 0, Way::Below, 1)]),
        (13, (20, 0), vec![compared(1, -24, Way::Below, 0)]),
        (999, (7, 0), vec![compared(1, 119, Way::Below, 120)]),
    ] {
        assert_explained(SEVERAL_RUNS, run, finding, &conditions, &[]);
    }
}

#[test]
fn numbers_with_the_certificates_they_come_from() {
    let both = [
        day(Kind::Meter, Side::Before, 8_980),
        day(Kind::Meter, Side::After, 9_020),
    ];
    let moved = [compared(1, 12_000, Way::Above, 10_300)];
    assert_explained(SEVERAL_RUNS, 2, (5, 0), &moved, &both);
    let worn = [compared(1, 5, Way::Above, 4)];
    let nozzle = [day(Kind::Nozzle, Side::Before, 8_990)];
    assert_explained(SEVERAL_RUNS, 20, (6, 0), &worn, &nozzle);
    let still = [compared(1, 0, Way::Equal, 0)];
    let meter_and_pitot = [
        day(Kind::Meter, Side::Before, 8_990),
        day(Kind::Meter, Side::After, 9_020),
        day(Kind::Pitot, Side::Before, 8_990),
    ];
    assert_explained(SEVERAL_RUNS, 12, (14, 0), &still, &meter_and_pitot);
}

#[test]
fn a_percent_a_hair_above_its_limit_has_a_remainder() {
    let above = Condition {
        remainder: 1_200_000_000_000,
        ..compared(1, 11_000, Way::Above, 11_000)
    };
    let days = [
        day(Kind::Meter, Side::Before, 8_990),
        day(Kind::Meter, Side::After, 9_020),
        day(Kind::Pitot, Side::Before, 8_990),
        day(Kind::Nozzle, Side::Before, 8_990),
    ];
    assert_explained(PERCENT_LIMITS, 4, (16, 0), &[above], &days);
}

#[test]
fn by_a_figure_its_points_are_compared() {
    let explained = |job, run| explain_finding_by_figure(MADE_UP, job, run, 9, 0);
    let conditions = |explained: Result<Explanation, Error>| explained.unwrap().conditions;
    let too_few = |points, least| [compared(1, points, Way::Below, least)];
    assert_eq!(conditions(explained(MORE_POINTS, 7)), too_few(24, 36));
    assert_eq!(conditions(explained(MORE_POINTS, 8)), too_few(25, 42));
    assert_explained(FEWER_POINTS, 7, (9, 0), &too_few(16, 24), &[]);
    assert_explained(FEWER_POINTS, 8, (9, 0), &too_few(20, 25), &[]);
    assert_eq!(explained(FEWER_POINTS, 7), Err(refused(15, 0)));
}

fn refused(number: u32, place: u32) -> Error {
    Error::Refused(Refusal { number, place })
}

#[test]
fn a_finding_that_the_run_does_not_have_is_refused() {
    let note = (11, 1);
    for (rule, place) in [
        (11, 0),
        (11, 2),
        (10, 1),
        (13, 0),
        (0, 0),
        (267, 1),
        (65_535, 65_535),
    ] {
        assert_ne!((rule, place), note);
        assert_eq!(explain_finding(WORKED, 7, rule, place), Err(refused(15, 0)));
        assert_eq!(
            explanation_text(WORKED, 7, rule, place),
            Err(refused(15, 0))
        );
    }
}

#[test]
fn refusals_come_in_order() {
    let cut = &WORKED[..9];
    let bad_figure = &MADE_UP[..3];
    for (figure, job, run, error) in [
        (bad_figure, cut, 8, refused(14, 3)),
        (MADE_UP, cut, 8, refused(1, 9)),
        (MADE_UP, WORKED, 8, refused(10, 0)),
        (MADE_UP, WORKED, 7, refused(15, 0)),
    ] {
        let explained = explain_finding_by_figure(figure, job, run, 9, 0);
        assert_eq!(explained, Err(error.clone()));
        let text = explanation_text_by_figure(figure, job, run, 9, 0);
        assert_eq!(text, Err(error));
    }
    assert_eq!(explain_finding(cut, 8, 11, 1), Err(refused(1, 9)));
    assert_eq!(explanation_text(WORKED, 8, 11, 1), Err(refused(10, 0)));
}

/// Whether the left number and its remainder stand to the right one and its limit so.
fn is_broken(condition: &Condition) -> bool {
    let left = (condition.left, condition.remainder);
    let right = (condition.right, condition.remainder_limit);
    match condition.way {
        Way::Below => left < right,
        Way::Above => left > right,
        Way::Equal => left == right,
        Way::Differs => left != right,
    }
}

/// A line of the text without the words behind two spaces.
fn line(condition: &Condition, rule: u8) -> String {
    let way = format!("{:?}", condition.way).to_uppercase();
    let [left, right] = [
        (condition.left, condition.remainder),
        (condition.right, condition.remainder_limit),
    ]
    .map(|(number, remainder)| match rule {
        15 | 16 => format!("{number} REMAINDER {remainder}"),
        _ => number.to_string(),
    });
    format!("  COMPARED {left} {way} {right}")
}

fn day_line(day: &CertificateDay) -> String {
    let kind = format!("{:?}", day.kind).to_uppercase();
    let side = format!("{:?}", day.side).to_uppercase();
    let dated = day.day.map_or("NONE".into(), |day| day.to_string());
    format!("  CERTIFICATE {kind} {side} {dated}")
}

/// Asserts that the text is what the explanation says.
fn assert_says(text: &[u8], finding: &Finding, explanation: &Explanation) {
    let class = match finding.class {
        Class::Fault => "FAULT",
        Class::Note => "NOTE",
    };
    let text = String::from_utf8(text.to_vec()).unwrap();
    let text = text.strip_suffix('\n').expect("its last line is ended");
    let mut lines = text.split('\n');
    let head = format!("{class} {} {}", finding.rule, finding.place);
    assert_eq!(lines.next(), Some(&head[..]));
    for condition in &explanation.conditions {
        let (compared, words) = lines.next().unwrap()[2..].split_once("  ").unwrap();
        assert_eq!(format!("  {compared}"), line(condition, finding.rule));
        assert!(
            words.contains("; ") && is_broken(condition),
            "{head}: {words}"
        );
    }
    let days: Vec<String> = explanation.days.iter().map(day_line).collect();
    assert_eq!(lines.collect::<Vec<_>>(), days, "{head}");
}

#[test]
fn every_finding_of_the_examples_has_its_explanation_in_both_forms() {
    let mut found = 0;
    for path in stored::texts() {
        let job = fs::read(path.with_extension("job")).unwrap();
        // One of them is refused.
        for run in run_numbers(&job).unwrap_or_default() {
            for finding in reduce_run(&job, run).unwrap().findings {
                let (rule, place) = (finding.rule.into(), finding.place);
                let explanation = explain_finding(&job, run, rule, place).unwrap();
                let text = explanation_text(&job, run, rule, place).unwrap();
                assert_says(&text, &finding, &explanation);
                found += 1;
            }
            for finding in reduce_run_by_figure(MADE_UP, &job, run).unwrap().findings {
                let (rule, place) = (finding.rule.into(), finding.place);
                let explanation = explain_finding_by_figure(MADE_UP, &job, run, rule, place);
                let text = explanation_text_by_figure(MADE_UP, &job, run, rule, place);
                assert_says(&text.unwrap(), &finding, &explanation.unwrap());
            }
        }
    }
    assert!(found > 40, "the examples have findings");
}
