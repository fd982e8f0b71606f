//! What each rule compares, worked by hand from the rules, and the days of the
//! certificates that it goes by.

use std::fs;

use independent::figure::Figure;
use independent::job::*;
use independent::{explain, explain_by_figure, explain_text, explain_text_by_figure, samples};

/// Rules and places without an explanation are not to be asked for here.
fn text_of(job: &Job, run: u16, rule: u16, place: u16) -> String {
    let (job, mut out) = (job.bytes(), [0; 1_024]);
    let length = explain_text(&job, run, rule, place, &mut out);
    String::from_utf8(out[..length as usize].to_vec()).unwrap()
}

fn bytes_of(job: &Job, run: u16, rule: u16, place: u16) -> Vec<u8> {
    let (job, mut out) = (job.bytes(), [0; 70]);
    let length = explain(&job, run, rule, place, &mut out);
    out[..length as usize].to_vec()
}

/// The lines of the text: the finding's, then those under it without their words.
fn told(job: &Job, run: u16, rule: u16, place: u16) -> Vec<String> {
    let text = text_of(job, run, rule, place);
    assert_alike(&bytes_of(job, run, rule, place), &text);
    without_words(&text)
}

fn without_words(text: &str) -> Vec<String> {
    let told = text.lines().map(|line| match line.strip_prefix("  ") {
        Some(under) => under.split("  ").next().unwrap(),
        None => line,
    });
    told.map(String::from).collect()
}

/// That the bytes hold what the text says. They alone tell which condition it is.
fn assert_alike(bytes: &[u8], text: &str) {
    let (counts, mut rest) = bytes.split_at(2);
    let mut lines = Vec::new();
    for _ in 0..counts[0] {
        let (condition, behind) = rest.split_at(34);
        lines.push(condition_in_words(condition, &without_words(text)[0]));
        rest = behind;
    }
    for _ in 0..counts[1] {
        let (day, behind) = rest.split_at(5);
        lines.push(day_in_words(day));
        rest = behind;
    }
    assert_eq!(rest, []);
    assert_eq!(lines, without_words(text)[1..]);
}

fn condition_in_words(condition: &[u8], finding: &str) -> String {
    let number = |at: usize| i64::from_le_bytes(condition[at..at + 8].try_into().unwrap());
    let [left, right, remainder, limit] = [2, 10, 18, 26].map(number);
    let way = ["BELOW", "ABOVE", "EQUAL", "DIFFERS"][usize::from(condition[1]) - 1];
    match finding {
        "FAULT 15 0" | "FAULT 16 0" => {
            format!("COMPARED {left} REMAINDER {remainder} {way} {right} REMAINDER {limit}")
        }
        _ => {
            assert_eq!([remainder, limit], [0, 0]);
            format!("COMPARED {left} {way} {right}")
        }
    }
}

fn day_in_words(entry: &[u8]) -> String {
    let kind = ["METER", "PITOT", "NOZZLE"][usize::from(entry[0]) - 1];
    let side = ["BEFORE", "AFTER"][usize::from(entry[1]) - 1];
    let day = u16::from_le_bytes([entry[3], entry[4]]);
    match entry[2] {
        1 => format!("CERTIFICATE {kind} {side} {day}"),
        found => {
            assert_eq!((found, day), (0, 0));
            format!("CERTIFICATE {kind} {side} NONE")
        }
    }
}

fn worked_in(version: Version, change: impl Fn(&mut Job)) -> Job {
    let mut job = Job {
        version,
        ..samples::worked()
    };
    change(&mut job);
    job
}

fn worked(change: impl Fn(&mut Job)) -> Job {
    worked_in(Version::One, change)
}

/// The worked job with its run changed.
fn sampled(change: impl Fn(&mut Run)) -> Job {
    worked(|job| change(&mut job.runs[0]))
}

/// In that stack, with the next and the last disturbance there, and its hour given to so
/// many points.
fn in_stack(sides: [u16; 2], [next, last]: [u16; 2], points: u16) -> Job {
    sampled(|run| {
        run.shape = match sides[1] {
            0 => Shape::Round,
            _ => Shape::Rectangular,
        };
        run.sides = sides;
        run.to_next_disturbance = next;
        run.from_last_disturbance = last;
        run.points = vec![run.points[0]; usize::from(points)];
        for point in &mut run.points {
            point.seconds = 3_600 / points;
        }
        run.segments[0].seconds = 3_600 / points * points;
    })
}

const ROUND: [u16; 2] = [240, 0];
/// 24 in too: 2·200·300/500.
const RECTANGULAR: [u16; 2] = [200, 300];
const UNDISTURBED: [u16; 2] = [480, 1_920];
const DISTURBED: [u16; 2] = [480, 1_919];

#[test]
fn missing_certificates_with_a_day_on_the_other_side() {
    let without = |kind: Kind, day: u16| {
        worked(|job| {
            let gone = |one: &Certificate| one.kind == kind && one.day == day;
            job.certificates.retain(|one| !gone(one));
        })
    };
    let later = |kind: Kind| {
        worked(|job| {
            let mut certificates = job.certificates.iter_mut();
            let certificate = certificates.find(|one| one.kind == kind).unwrap();
            certificate.day = 9_001;
        })
    };
    assert_eq!(
        told(&without(Kind::Meter, 8_990), 7, 1, 0),
        [
            "FAULT 1 0",
            "CERTIFICATE METER BEFORE NONE",
            "CERTIFICATE METER AFTER 9020"
        ]
    );
    assert_eq!(
        told(&later(Kind::Pitot), 7, 2, 0),
        [
            "FAULT 2 0",
            "CERTIFICATE PITOT BEFORE NONE",
            "CERTIFICATE PITOT AFTER 9001"
        ]
    );
    assert_eq!(
        told(&later(Kind::Nozzle), 7, 3, 0),
        [
            "FAULT 3 0",
            "CERTIFICATE NOZZLE BEFORE NONE",
            "CERTIFICATE NOZZLE AFTER 9001"
        ]
    );
    assert_eq!(
        told(&without(Kind::Meter, 9_020), 7, 4, 0),
        [
            "FAULT 4 0",
            "CERTIFICATE METER BEFORE 8990",
            "CERTIFICATE METER AFTER NONE"
        ]
    );
}

#[test]
fn missing_certificates_with_none_on_either_side() {
    for version in Version::ALL {
        let bare = worked_in(version, |job| job.certificates.clear());
        for (rule, kind) in [(1, "METER"), (2, "PITOT"), (3, "NOZZLE"), (4, "METER")] {
            assert_eq!(
                told(&bare, 7, rule, 0),
                [
                    format!("FAULT {rule} 0"),
                    format!("CERTIFICATE {kind} BEFORE NONE"),
                    format!("CERTIFICATE {kind} AFTER NONE")
                ]
            );
        }
    }
}

#[test]
fn the_nearest_later_day_is_told() {
    let job = worked(|job| {
        let pitot = job.certificates.remove(2);
        let dated = |day| Certificate { day, ..pitot };
        job.certificates.extend([9_010, 9_003, 9_005].map(dated));
    });
    assert_eq!(
        told(&job, 7, 2, 0)[1..],
        [
            "CERTIFICATE PITOT BEFORE NONE",
            "CERTIFICATE PITOT AFTER 9003"
        ]
    );
}

/// Day 0 is a day, and is told from no certificate.
#[test]
fn the_nearest_earlier_day_is_told() {
    let job = worked(|job| {
        job.certificates[0].day = 0;
        job.certificates.remove(1);
    });
    assert_eq!(told(&job, 7, 4, 0)[1], "CERTIFICATE METER BEFORE 0");
    assert_eq!(
        bytes_of(&job, 7, 4, 0),
        [0, 2, 1, 1, 1, 0, 0, 1, 2, 0, 0, 0]
    );
    let on_the_day = worked(|job| job.certificates[1].day = 9_000);
    assert_eq!(
        told(&on_the_day, 7, 4, 0)[1],
        "CERTIFICATE METER BEFORE 9000"
    );
}

#[test]
fn a_certificate_with_another_letter_is_not_told() {
    let lettered = worked_in(Version::Two, |job| job.runs[0].meter.letter = b'A');
    assert_eq!(
        told(&lettered, 7, 1, 0)[1..],
        [
            "CERTIFICATE METER BEFORE NONE",
            "CERTIFICATE METER AFTER NONE"
        ]
    );
}

/// 20·501 against 10,000.
#[test]
fn rule_5_compares_20_differences_with_the_before_factor() {
    for after in [10_501, 9_499] {
        let [in_1, in_2] = Version::ALL
            .map(|version| worked_in(version, |job| job.certificates[1].values[0] = after));
        let under = [
            "COMPARED 10020 ABOVE 10000",
            "CERTIFICATE METER BEFORE 8990",
            "CERTIFICATE METER AFTER 9020",
        ];
        assert_eq!(told(&in_1, 7, 5, 0), [&["NOTE 5 0"], &under[..]].concat());
        assert_eq!(told(&in_2, 7, 5, 0), [&["FAULT 5 0"], &under[..]].concat());
    }
}

#[test]
fn rule_6_compares_the_spread_of_the_nozzle() {
    let worn = worked(|job| job.certificates[3].values = [252, 250, 255]);
    assert_eq!(
        told(&worn, 7, 6, 0),
        [
            "FAULT 6 0",
            "COMPARED 5 ABOVE 4",
            "CERTIFICATE NOZZLE BEFORE 8990"
        ]
    );
}

/// 2·100·149 against 120·249.
#[test]
fn rule_7_compares_the_diameter_or_the_products_of_the_sides() {
    let round = in_stack([119, 0], UNDISTURBED, 8);
    assert_eq!(
        told(&round, 7, 7, 0),
        ["FAULT 7 0", "COMPARED 119 BELOW 120"]
    );
    let rectangular = in_stack([100, 149], UNDISTURBED, 9);
    assert_eq!(
        told(&rectangular, 7, 7, 0),
        ["FAULT 7 0", "COMPARED 29800 BELOW 29880"]
    );
}

/// Half of 240 is 120, and twice 480. Of the rectangle 119·500 stand against 200·300,
/// and 479·500 against 4·200·300.
#[test]
fn rule_8_tells_its_conditions_alone_and_together() {
    let told = |sides, disturbances| told(&in_stack(sides, disturbances, 8), 7, 8, 0);
    let finding = "FAULT 8 0";
    let [next, last] = ["COMPARED 238 BELOW 240", "COMPARED 479 BELOW 480"];
    assert_eq!(told(ROUND, [119, 480]), [finding, next]);
    assert_eq!(told(ROUND, [120, 479]), [finding, last]);
    assert_eq!(told(ROUND, [119, 479]), [finding, next, last]);
    let [next, last] = ["COMPARED 59500 BELOW 60000", "COMPARED 239500 BELOW 240000"];
    assert_eq!(told(RECTANGULAR, [119, 480]), [finding, next]);
    assert_eq!(told(RECTANGULAR, [120, 479]), [finding, last]);
    assert_eq!(told(RECTANGULAR, [119, 479]), [finding, next, last]);
}

#[test]
fn rule_9_tells_its_conditions_alone_and_together() {
    let told = |sides, disturbances, points| {
        let told = told(&in_stack(sides, disturbances, points), 7, 9, 0);
        assert_eq!(told[0], "FAULT 9 0");
        told[1..].to_vec()
    };
    assert_eq!(told(ROUND, DISTURBED, 8), ["COMPARED 8 BELOW 24"]);
    assert_eq!(told(ROUND, UNDISTURBED, 10), ["COMPARED 10 DIFFERS 12"]);
    assert_eq!(
        told(ROUND, DISTURBED, 10),
        ["COMPARED 10 BELOW 24", "COMPARED 10 DIFFERS 12"]
    );
    assert_eq!(
        told(ROUND, UNDISTURBED, 1),
        ["COMPARED 1 BELOW 8", "COMPARED 1 DIFFERS 4"]
    );
    assert_eq!(told([241, 0], [482, 1_928], 8), ["COMPARED 8 BELOW 12"]);
    assert_eq!(told(ROUND, DISTURBED, 63), ["COMPARED 63 DIFFERS 64"]);

    assert_eq!(told(RECTANGULAR, DISTURBED, 9), ["COMPARED 9 BELOW 25"]);
    assert_eq!(
        told(RECTANGULAR, UNDISTURBED, 10),
        ["COMPARED 10 DIFFERS 12"]
    );
    assert_eq!(
        told(RECTANGULAR, UNDISTURBED, 8),
        ["COMPARED 8 BELOW 9", "COMPARED 8 DIFFERS 9"]
    );
    assert_eq!(
        told(RECTANGULAR, DISTURBED, 24),
        ["COMPARED 24 BELOW 25", "COMPARED 24 DIFFERS 25"]
    );
    // Nothing higher than 49 is allowed.
    assert_eq!(told(RECTANGULAR, DISTURBED, 64), ["COMPARED 64 DIFFERS 49"]);
}

/// Which of the rule's conditions it is, and in which way it is broken.
fn conditions_of(job: &Job, rule: u16) -> Vec<[u8; 2]> {
    let bytes = bytes_of(job, 7, rule, 0);
    let conditions = bytes[2..].chunks_exact(34).take(usize::from(bytes[0]));
    conditions.map(|bytes| [bytes[0], bytes[1]]).collect()
}

#[test]
fn a_condition_keeps_its_number_where_it_stands_alone() {
    let next = in_stack(ROUND, [119, 480], 8);
    let last = in_stack(ROUND, [120, 479], 8);
    let both = in_stack(ROUND, [119, 479], 10);
    assert_eq!(conditions_of(&next, 8), [[1, 1]]);
    assert_eq!(conditions_of(&last, 8), [[2, 1]]);
    assert_eq!(conditions_of(&both, 8), [[1, 1], [2, 1]]);
    assert_eq!(conditions_of(&last, 9), [[1, 1]]);
    assert_eq!(
        conditions_of(&in_stack(ROUND, UNDISTURBED, 10), 9),
        [[2, 4]]
    );
    assert_eq!(conditions_of(&both, 9), [[1, 1], [2, 4]]);
    assert_eq!(bytes_of(&both, 7, 9, 0).len(), 70);
}

fn told_by(figure: &Figure, job: &Job, run: u16) -> Vec<String> {
    let (figure, job) = (figure.bytes(), job.bytes());
    let (mut bytes, mut text) = ([0; 70], [0; 1_024]);
    let length = explain_by_figure(&figure, &job, run, 9, 0, &mut bytes);
    let bytes = &bytes[..length as usize];
    let length = explain_text_by_figure(&figure, &job, run, 9, 0, &mut text);
    let text = String::from_utf8(text[..length as usize].to_vec()).unwrap();
    assert_alike(bytes, &text);
    without_words(&text)
}

/// The sample asks for 36 round points and 42 rectangular ones where the house rule is
/// content with the 24 and 25 that there are; and for 16, and for 18 raised to 20.
#[test]
fn rule_9_compares_with_what_a_figure_asks_for() {
    let figure = samples::made_up();
    for version in Version::ALL {
        let in_version = |sample| Job { version, ..sample };
        let more = in_version(samples::more_points());
        assert_eq!(
            told_by(&figure, &more, 7),
            ["FAULT 9 0", "COMPARED 24 BELOW 36"]
        );
        assert_eq!(
            told_by(&figure, &more, 8),
            ["FAULT 9 0", "COMPARED 25 BELOW 42"]
        );
        let mut fewer = in_version(samples::fewer_points());
        for (run, points) in fewer.runs.iter_mut().zip([15, 19]) {
            run.points.truncate(points);
            run.segments[0].seconds = run.points.iter().map(|point| point.seconds).sum();
        }
        assert_eq!(
            told_by(&figure, &fewer, 7),
            [
                "FAULT 9 0",
                "COMPARED 15 BELOW 16",
                "COMPARED 15 DIFFERS 16"
            ]
        );
        assert_eq!(
            told_by(&figure, &fewer, 8),
            [
                "FAULT 9 0",
                "COMPARED 19 BELOW 20",
                "COMPARED 19 DIFFERS 20"
            ]
        );
    }
}

#[test]
fn rules_10_and_11_compare_at_their_place() {
    let short = sampled(|run| {
        run.points[2].seconds = 119;
        run.points[3].seconds = 1;
        run.segments[0].seconds = 6 * 450 + 119 + 1;
    });
    assert_eq!(
        told(&short, 7, 10, 3),
        ["FAULT 10 3", "COMPARED 119 BELOW 120"]
    );
    assert_eq!(
        told(&short, 7, 10, 4),
        ["FAULT 10 4", "COMPARED 1 BELOW 120"]
    );
    // 5·3,600·30 against 100·3,600, and then against 12·20,000.
    assert_eq!(
        told(&samples::worked(), 7, 11, 1),
        ["NOTE 11 1", "COMPARED 540000 ABOVE 360000"]
    );
    let less = sampled(|run| run.last_reading = run.first_reading + 20_000);
    assert_eq!(
        told(&less, 7, 11, 1),
        ["NOTE 11 1", "COMPARED 540000 ABOVE 240000"]
    );
}

#[test]
fn rules_12_and_14_compare_lines_with_0() {
    let nothing_metered = sampled(|run| run.last_reading = run.first_reading);
    assert_eq!(
        told(&nothing_metered, 7, 12, 0),
        ["FAULT 12 0", "COMPARED 0 EQUAL 0"]
    );
    let still = |version| {
        let still = |job: &mut Job| {
            let points = job.runs[0].points.iter_mut();
            points.for_each(|point| point.velocity_head = 0);
        };
        worked_in(version, still)
    };
    let [in_1, in_2] = Version::ALL.map(still);
    let compared = ["FAULT 14 0", "COMPARED 0 EQUAL 0"];
    let [before, after, pitot] = [
        "CERTIFICATE METER BEFORE 8990",
        "CERTIFICATE METER AFTER 9020",
        "CERTIFICATE PITOT BEFORE 8990",
    ];
    assert_eq!(
        told(&in_1, 7, 14, 0),
        [&compared[..], &[before, after, pitot]].concat()
    );
    assert_eq!(
        told(&in_2, 7, 14, 0),
        [&compared[..], &[before, pitot]].concat()
    );
}

/// The sample with lines 15 to 17 of 41,375, 25,920 and 80,431 and of 41,000, 25,920 and
/// 97,418 in 5,000 seconds. 9,000·41,375·25,920·5,000 is 48,259,800 billion, and
/// 6·10^11·80,431 is 1,200 billion less; a whole 41,375·25,920·5,000 is 5,362.2 billion.
/// The other is 1,200 billion above 11,000·41,000·25,920·5,000.
#[test]
fn rules_15_and_16_compare_quotient_and_remainder() {
    let at_limits = |version| Job {
        version,
        ..samples::percent_limits()
    };
    let [in_1, in_2] = Version::ALL.map(at_limits);
    let [before, after, pitot, nozzle] = [
        "CERTIFICATE METER BEFORE 8990",
        "CERTIFICATE METER AFTER 9020",
        "CERTIFICATE PITOT BEFORE 8990",
        "CERTIFICATE NOZZLE BEFORE 8990",
    ];
    let slow = [
        "FAULT 15 0",
        "COMPARED 8999 REMAINDER 4162200000000 BELOW 9000 REMAINDER 0",
    ];
    let fast = [
        "FAULT 16 0",
        "COMPARED 11000 REMAINDER 1200000000000 ABOVE 11000 REMAINDER 0",
    ];
    for (run, rule, compared) in [(1, 15, slow), (4, 16, fast)] {
        assert_eq!(
            told(&in_1, run, rule, 0),
            [&compared[..], &[before, after, pitot, nozzle]].concat()
        );
        assert_eq!(
            told(&in_2, run, rule, 0),
            [&compared[..], &[before, pitot, nozzle]].concat()
        );
    }
}

/// Line 18 is 9,000·d/d with d = 41,375·25,920·5,000 in run 2 of the sample, and so it is
/// 4,500 in twice the time and 18,000 in half of it.
#[test]
fn a_remainder_of_0_is_told_too() {
    let mut job = samples::percent_limits();
    for (run, seconds, total) in [(1, 1_250, 10_000), (2, 625, 2_500)] {
        let mut timed = job.runs[1].clone();
        timed.number = run;
        timed.points = vec![timed.points[0]; usize::from(total / seconds)];
        for point in &mut timed.points {
            point.seconds = seconds;
        }
        timed.segments[0].seconds = total;
        job.runs[usize::from(run) - 1] = timed;
    }
    job.runs.truncate(2);
    assert_eq!(
        told(&job, 1, 15, 0)[1],
        "COMPARED 4500 REMAINDER 0 BELOW 9000 REMAINDER 0"
    );
    assert_eq!(
        told(&job, 2, 16, 0)[1],
        "COMPARED 18000 REMAINDER 0 ABOVE 11000 REMAINDER 0"
    );
}

/// In a job of version 1 an after certificate that is missing is told, too.
#[test]
fn the_after_day_of_rules_14_to_16_may_be_none() {
    let mut job = samples::percent_limits();
    job.certificates.remove(1);
    assert_eq!(
        told(&job, 4, 16, 0)[2..4],
        [
            "CERTIFICATE METER BEFORE 8990",
            "CERTIFICATE METER AFTER NONE"
        ]
    );
}

/// Nets of 599, 90,000 and -600, with final weights 6, 901 and 6 apart.
#[test]
fn rule_17_compares_with_the_net_or_500() {
    let job = samples::weighing_limits();
    let told = |run| told(&job, run, 17, 1);
    assert_eq!(told(2), ["FAULT 17 1", "COMPARED 600 ABOVE 599"]);
    assert_eq!(told(4), ["FAULT 17 1", "COMPARED 90100 ABOVE 90000"]);
    assert_eq!(told(6), ["FAULT 17 1", "COMPARED 600 ABOVE 500"]);
}

#[test]
fn rules_18_and_19_count_filters_and_rinses() {
    let without = |place: usize| {
        sampled(|run| {
            run.weighings.remove(place);
        })
    };
    let compared = "COMPARED 0 BELOW 1";
    assert_eq!(told(&without(0), 7, 18, 0), ["FAULT 18 0", compared]);
    assert_eq!(told(&without(1), 7, 19, 0), ["FAULT 19 0", compared]);
}

/// 3,980 - 4,000, less 8·100/200 of acetone.
#[test]
fn rule_20_compares_a_negative_catch() {
    let job = samples::several_runs();
    assert_eq!(
        told(&job, 13, 20, 0),
        ["FAULT 20 0", "COMPARED -24 BELOW 0"]
    );
    let bytes = bytes_of(&job, 13, 20, 0);
    let [left, right] = [(-24_i64).to_le_bytes(), 0_i64.to_le_bytes()];
    let expected = [&[1, 0, 1, 1], &left[..], &right, &[0; 16]].concat();
    assert_eq!(bytes, expected);
}

#[test]
fn a_text_in_full() {
    assert_eq!(
        text_of(&samples::percent_limits(), 4, 16, 0),
        "\
FAULT 16 0
  COMPARED 11000 REMAINDER 1200000000000 ABOVE 11000 REMAINDER 0  percent isokinetic before rounding; its upper limit (0.01 percent)
  CERTIFICATE METER BEFORE 8990
  CERTIFICATE METER AFTER 9020
  CERTIFICATE PITOT BEFORE 8990
  CERTIFICATE NOZZLE BEFORE 8990
"
    );
}

/// Rule, and the words of its condition: those of the table in docs/RULES.md.
fn words_of_the_rules() -> Vec<(String, String)> {
    let rules = concat!(env!("CARGO_MANIFEST_DIR"), "/../docs/RULES.md");
    let rules = fs::read_to_string(rules).unwrap();
    let (_, explained) = rules.split_once("\n## A finding explained\n").unwrap();
    let (table, _) = explained.split_once("\n**The certificate days.**").unwrap();
    let mut rule = String::new();
    let mut words = Vec::new();
    for row in table.lines().filter(|line| line.ends_with("` |")) {
        let cells: Vec<&str> = row.split('|').map(str::trim).collect();
        if !cells[1].is_empty() {
            rule = cells[1].split(',').next().unwrap().into();
        }
        words.push((rule.clone(), cells[6].trim_matches('`').into()));
    }
    words
}

/// The rule of a text and the words of its conditions.
fn words_of(text: &str) -> Vec<(String, String)> {
    let (finding, under) = text.split_once('\n').unwrap();
    let rule = finding.split(' ').nth(1).unwrap();
    let compared = under.lines().filter(|line| line.starts_with("  COMPARED "));
    let words = compared.map(|line| line[2..].split_once("  ").unwrap().1);
    words.map(|words| (rule.into(), words.into())).collect()
}

#[test]
fn the_words_are_those_of_the_rules() {
    let mut narrow = in_stack([100, 149], [0, 0], 8);
    narrow.certificates[1].values[0] = 10_501;
    narrow.certificates[3].values = [250, 255, 250];
    let mut bare = in_stack([119, 0], [0, 0], 31);
    bare.runs[0].weighings.clear();
    bare.runs[0].last_reading = bare.runs[0].first_reading;
    let still = sampled(|run| {
        let points = run.points.iter_mut();
        points.for_each(|point| point.velocity_head = 0);
    });
    let mut said: Vec<(String, String)> = [
        narrow,
        bare,
        in_stack(ROUND, DISTURBED, 8),
        still,
        samples::percent_limits(),
        samples::weighing_limits(),
    ]
    .iter()
    .flat_map(every_text)
    .flat_map(|text| words_of(&text))
    .collect();
    said.sort();
    said.dedup();
    let mut expected = words_of_the_rules();
    assert_eq!(expected.len(), 22);
    expected.sort();
    assert_eq!(said, expected);
}

/// Those of all findings of all runs.
fn every_text(job: &Job) -> Vec<String> {
    let findings = job.runs.iter().flat_map(|run| {
        let worked = independent::work(None, job, run);
        let number = run.number;
        let findings = worked.findings.into_iter();
        findings.map(move |finding| (number, finding))
    });
    findings
        .map(|(run, finding)| text_of(job, run, finding.rule.into(), finding.place))
        .collect()
}
