//! Values on either side of each limit.

use independent::job::{Certificate, Job, Point, Run, Segment, Shape, Version, WeighingKind};
use independent::{samples, work, Class, Finding, Worked};

fn worked_with(change: impl Fn(&mut Job)) -> Worked {
    let mut job = samples::worked();
    change(&mut job);
    work(None, &job, &job.runs[0])
}

fn run_with(change: impl Fn(&mut Run)) -> Worked {
    worked_with(|job| change(&mut job.runs[0]))
}

/// The places at which the rule was found.
fn places(worked: &Worked, rule: u8) -> Vec<u16> {
    let of_rule = worked.findings.iter().filter(|one| one.rule == rule);
    of_rule.map(|one| one.place).collect()
}

fn found(worked: &Worked, rule: u8) -> bool {
    !places(worked, rule).is_empty()
}

#[test]
fn leak_above_four_percent() {
    let worked = run_with(|run| {
        run.last_reading = run.first_reading + 20_000;
        run.segments[0].leak = 20;
    });
    assert_eq!(worked.lines.line(3), Some(19_600));
    assert_eq!(places(&worked, 11), [1]);
}

#[test]
fn leak_at_the_allowance_takes_nothing() {
    let worked = run_with(|run| run.segments[0].leak = 20);
    assert_eq!(worked.lines.line(3), Some(40_000));
    assert!(!found(&worked, 11));
}

#[test]
fn leaks_drawing_more_than_was_metered_leave_nothing() {
    let worked = run_with(|run| {
        run.last_reading = run.first_reading + 1_000;
        run.segments[0].leak = 1_000;
    });
    assert_eq!(worked.lines.line(3), Some(0));
    assert_eq!(worked.lines.line(6), None);
    assert!(found(&worked, 12));
}

#[test]
fn the_least_dry_volume_is_not_0() {
    let job = samples::thinnest();
    let worked = work(None, &job, &job.runs[0]);
    let lines: Vec<_> = (3..=6).map(|line| worked.lines.line(line)).collect();
    // 1764·1·9000·200000/(10^9·6100) is 0.52.
    assert_eq!(lines, [1, 200_000, 6_100, 1].map(Some));
    assert!(worked.lines.line(8).is_some() && worked.lines.line(20).is_some());
}

/// The class of finding 5, if it is found, whether the run stands, and its line 6, with
/// that after factor, the before factor being 10,000.
fn with_after_factor(version: Version, factor: u16) -> (Option<Class>, bool, Option<i64>) {
    let worked = worked_with(|job| {
        job.version = version;
        job.certificates[1].values[0] = factor;
    });
    let mut findings = worked.findings.iter();
    let class = findings.find(|one| one.rule == 5).map(|one| one.class);
    (class, worked.accepted(), worked.lines.line(6))
}

#[test]
fn factor_moves_past_five_percent() {
    // 1764·39400·Y·301471/(10^9·5400) for Y 10,000 and 9,499, where it is 36857.4.
    let [before, after] = [38_801, 36_857].map(Some);
    let [note, fault] = [Class::Note, Class::Fault].map(Some);
    for version in Version::ALL {
        let kept = (None, true, before);
        assert_eq!(with_after_factor(version, 9_500), kept);
        assert_eq!(with_after_factor(version, 10_500), kept);
    }
    let [in_1, in_2] =
        Version::ALL.map(|version| [9_499, 10_501].map(|one| with_after_factor(version, one)));
    assert_eq!(in_1, [(note, true, after), (note, true, before)]);
    assert_eq!(in_2, [(fault, false, before); 2]);
}

#[test]
fn certificates_match_by_maker_and_day() {
    let other_maker = worked_with(|job| job.certificates[0].instrument.maker = *b"ABD");
    assert!(found(&other_maker, 1));
    let same_day = worked_with(|job| job.certificates[0].day = 9_000);
    assert!(!found(&same_day, 1));
    let day_after = worked_with(|job| job.certificates[0].day = 9_001);
    assert!(found(&day_after, 1) && !found(&day_after, 4));
    let no_after = worked_with(|job| job.certificates[1].day = 9_000);
    assert!(found(&no_after, 4) && no_after.lines.line(6).is_some());
}

#[test]
fn the_latest_before_and_the_earliest_after_count() {
    let worked = worked_with(|job| {
        let [early, late] = [job.certificates[0], job.certificates[1]];
        job.certificates.extend([
            // Dated like neither, further away than both.
            with_day_and_factor(early, 8_000, 11_000),
            with_day_and_factor(late, 9_900, 9_000),
        ]);
    });
    assert_eq!(worked.lines.line(6), Some(38_801));
    assert!(!found(&worked, 5));
}

fn with_day_and_factor(mut certificate: Certificate, day: u16, factor: u16) -> Certificate {
    certificate.day = day;
    certificate.values[0] = factor;
    certificate
}

/// Line 18 as it is printed, and whether rules 15 and 16 are broken.
fn judged(worked: &Worked) -> (Option<i64>, bool, bool) {
    (worked.lines.line(18), found(worked, 15), found(worked, 16))
}

#[test]
fn isokinetic_limits() {
    let job = samples::percent_limits();
    let runs = job.runs.iter();
    let runs: Vec<_> = runs.map(|run| judged(&work(None, &job, run))).collect();
    assert_eq!(
        runs,
        [
            (Some(9_000), true, false),
            (Some(9_000), false, false),
            (Some(11_000), false, false),
            (Some(11_000), false, true),
        ]
    );
}

/// The worked job metered from far below 90 percent to far above 110: line 18 on
/// both sides of each change of verdict.
#[test]
fn isokinetic_verdicts() {
    let percents = (130_000..150_000).map(|last| judged(&run_with(|run| run.last_reading = last)));
    let percents: Vec<_> = percents.collect();
    let changes: Vec<_> = percents
        .windows(2)
        .filter(|pair| (pair[0].1, pair[0].2) != (pair[1].1, pair[1].2))
        .map(|pair| (pair[0].0, pair[1].0))
        .collect();
    // Before rounding 8,999.98 and 9,000.31, 10,999.90 and 11,000.12.
    let limits = [9_000, 11_000].map(|limit| (Some(limit), Some(limit)));
    assert_eq!(changes, limits);
}

#[test]
fn nozzle_spread() {
    let spread = |values| found(&worked_with(|job| job.certificates[3].values = values), 6);
    assert!(!spread([250, 254, 252]));
    assert!(spread([255, 252, 250]));
}

#[test]
fn stack_below_twelve_inches() {
    let narrow = |shape, sides| {
        let worked = run_with(|run| {
            run.shape = shape;
            run.sides = sides;
        });
        found(&worked, 7)
    };
    assert!(narrow(Shape::Round, [119, 0]));
    assert!(!narrow(Shape::Round, [120, 0]));
    assert!(!narrow(Shape::Rectangular, [100, 150]));
    assert!(narrow(Shape::Rectangular, [100, 149]));
}

#[test]
fn nearest_disturbances() {
    let near = |next, last| {
        let worked = run_with(|run| {
            run.to_next_disturbance = next;
            run.from_last_disturbance = last;
        });
        found(&worked, 8)
    };
    assert!(!near(120, 480));
    assert!(near(119, 480));
    assert!(near(120, 479));
}

fn wrong_points(count: usize, shape: Shape, sides: [u16; 2], next: u16, last: u16) -> bool {
    let worked = run_with(|run| {
        run.shape = shape;
        run.sides = sides;
        run.to_next_disturbance = next;
        run.from_last_disturbance = last;
        run.points = vec![run.points[0]; count];
    });
    found(&worked, 9)
}

#[test]
fn points_in_a_round_stack() {
    let small = |count| wrong_points(count, Shape::Round, [240, 0], 480, 1_920);
    assert!(small(4) && !small(8) && small(9) && !small(12) && !small(64));
    let large = |count| wrong_points(count, Shape::Round, [241, 0], 482, 1_928);
    assert!(large(8) && !large(12) && large(14) && !large(16));
    let disturbed = |count| wrong_points(count, Shape::Round, [240, 0], 480, 1_919);
    assert!(disturbed(20) && !disturbed(24) && disturbed(25));
    assert!(wrong_points(20, Shape::Round, [240, 0], 479, 1_920));
}

#[test]
fn points_in_a_rectangular_stack() {
    // 200 x 300 is 24 in exactly.
    let small = |count| wrong_points(count, Shape::Rectangular, [200, 300], 480, 1_920);
    assert!(small(8) && !small(9) && !small(12) && small(24) && !small(49) && small(64));
    let large = |count| wrong_points(count, Shape::Rectangular, [200, 301], 481, 1_923);
    assert!(large(9) && !large(12) && !large(16));
    let disturbed = |count| wrong_points(count, Shape::Rectangular, [200, 300], 479, 1_920);
    assert!(disturbed(20) && !disturbed(25) && disturbed(28) && !disturbed(30));
}

#[test]
fn short_points() {
    let worked = run_with(|run| {
        run.points[1].seconds = 119;
        run.points[4].seconds = 120;
        run.points[7].seconds = 1;
    });
    assert_eq!(places(&worked, 10), [2, 8]);
}

#[test]
fn segments_above_the_allowance() {
    let worked = run_with(|run| {
        let seconds = 1_200;
        run.segments = [21, 20, 22].map(|leak| Segment { seconds, leak }).to_vec();
    });
    assert_eq!(places(&worked, 11), [1, 3]);
    // 40,000 less 1,200 s at 1 and 1,200 s at 2 thousandths of a cfm.
    assert_eq!(worked.lines.line(3), Some(40_000 - 20 - 40));
}

#[test]
fn no_velocity() {
    let still = run_with(|run| {
        let velocity_head = 0;
        run.points = vec![
            Point {
                velocity_head,
                ..run.points[0]
            };
            8
        ];
    });
    assert!(found(&still, 14));
    assert_eq!(
        (still.lines.line(15), still.lines.line(18)),
        (Some(0), None)
    );
}

/// Whether a weighing with that difference and that net is found unsteady, with its
/// first final weight the higher one or the lower.
fn unsteady(difference: u32, net: i32) -> bool {
    let tare = 100_000;
    let second = (tare as i32 + net) as u32;
    let [higher, lower] = [second + difference, second - difference].map(|first| {
        let worked = run_with(|run| {
            run.weighings[1].tare = tare;
            run.weighings[1].first_final = first;
            run.weighings[1].second_final = second;
        });
        places(&worked, 17)
    });
    assert_eq!(higher, lower);
    assert!(higher.is_empty() || higher == [2]);
    !higher.is_empty()
}

#[test]
fn final_weights_about_half_a_milligram_apart() {
    let nets = [-600, -1, 0, 500, 599, 600, 601];
    let of_5 = nets.map(|net| unsteady(5, net));
    let of_6 = nets.map(|net| unsteady(6, net));
    assert_eq!(of_5, [false; 7]);
    assert_eq!(of_6, [true, true, true, true, true, false, false]);
}

#[test]
fn final_weights_about_one_percent_of_the_net_apart() {
    let differences = [899, 900, 901];
    assert_eq!(
        differences.map(|one| unsteady(one, 90_000)),
        [false, false, true]
    );
    assert_eq!(
        differences.map(|one| unsteady(one, 89_999)),
        [false, true, true]
    );
}

#[test]
fn weighing_limits() {
    let job = samples::weighing_limits();
    let runs = job.runs.iter();
    let found: Vec<_> = runs.map(|run| work(None, &job, run).findings).collect();
    let unsteady = [Finding {
        rule: 17,
        class: Class::Fault,
        place: 1,
    }];
    let expected: [&[Finding]; 6] = [&[], &unsteady, &[], &unsteady, &[], &unsteady];
    assert_eq!(found, expected);
}

#[test]
fn filters_and_rinses() {
    let one_kind = |kind: WeighingKind| {
        let worked = run_with(|run| run.weighings.retain(|one| one.kind == kind));
        (found(&worked, 18), found(&worked, 19))
    };
    assert_eq!(one_kind(WeighingKind::Filter), (false, true));
    assert_eq!(one_kind(WeighingKind::Rinse), (true, false));
}

#[test]
fn catch_below_zero() {
    let nothing_weighed = run_with(|run| run.weighings.clear());
    assert_eq!(nothing_weighed.lines.line(19), Some(-4));
    assert_eq!(nothing_weighed.lines.line(20), None);
    assert!(found(&nothing_weighed, 20));

    let zero = run_with(|run| {
        run.weighings.clear();
        run.rinse_volume = 0;
    });
    assert_eq!(zero.lines.line(19), Some(0));
    assert_eq!(zero.lines.line(20), Some(0));
    assert!(!found(&zero, 20));
}

#[test]
fn the_blank_counts_for_no_more_than_its_share() {
    let worked = run_with(|run| run.blank_residue = 65_535);
    assert_eq!(worked.lines.line(19), Some(1_060 - 7));
}

#[test]
fn a_missing_certificate_leaves_only_its_lines_absent() {
    let absent = |kind_at: usize| {
        let worked = worked_with(|job| {
            job.certificates.remove(kind_at);
        });
        (1..=20)
            .filter(|&line| worked.lines.line(line).is_none())
            .collect::<Vec<_>>()
    };
    assert_eq!(absent(0), [6, 8, 10, 14, 15, 17, 18, 20]);
    assert_eq!(absent(1), []);
    assert_eq!(absent(2), [15, 18]);
    assert_eq!(absent(3), [16, 18]);
}
