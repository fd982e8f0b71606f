//! What lines, findings, runs, refusals and errors say.

use leverbonnet::{texts, Class, Error, Finding, Line, Reduced, Refusal, LINE_COUNT};

fn line(number: u8, value: i64) -> Line {
    let value = Some(value);
    Line { number, value }
}

#[test]
fn a_line_is_a_row_with_its_amount_two_spaces_behind_its_name() {
    for (number, value, row) in [
        (1, 3600, " 1                  Time  3600 s"),
        (3, 39400, " 3      Corrected volume  39.400 ft3"),
        (9, 30160, " 9  Dry molecular weight  30.160 lb/lb-mole"),
        (
            14,
            8741,
            "14          Density root  0.8741 (R lb-mole/in Hg lb)^0.5",
        ),
        (16, 34089, "16           Nozzle area  0.00034089 ft2"),
        (18, 9980, "18    Percent isokinetic  99.80 %"),
        (20, 4199, "20         Concentration  0.04199 gr/dscf"),
    ] {
        assert_eq!(line(number, value).to_string(), row);
    }
}

#[test]
fn an_absent_line_has_no_unit() {
    let absent = Line {
        number: 20,
        value: None,
    };
    assert_eq!(absent.to_string(), "20         Concentration  absent");
    assert_eq!(
        (absent.amount().as_str(), absent.unit()),
        ("absent", "gr/dscf")
    );
}

#[test]
fn an_amount_has_the_lines_decimals() {
    for (number, value, amount) in [
        (1, 0, "0"),
        (1, -3, "-3"),
        (18, 0, "0.00"),
        (19, 0, "0.0"),
        (19, 7, "0.7"),
        (19, -7, "-0.7"),
        (19, -24, "-2.4"),
        (19, 12345678, "1234567.8"),
        (20, 5, "0.00005"),
        (20, 100000, "1.00000"),
        (8, 10819, "10.819"),
        (16, i64::MAX, "92233720368.54775807"),
        (16, i64::MIN, "-92233720368.54775808"),
        (1, i64::MIN, "-9223372036854775808"),
    ] {
        assert_eq!(line(number, value).amount(), amount);
    }
}

#[test]
fn the_lines_are_twenty_and_the_longest_name_fits_its_column() {
    let numbers = texts::LINES.iter().map(|line| usize::from(line.number));
    assert!(numbers.eq(1..=LINE_COUNT));
    let longest = texts::LINES.iter().map(|line| line.name.len()).max();
    assert_eq!(longest, Some(20));
}

#[test]
fn a_line_from_its_bytes() {
    let absent = Line {
        number: 2,
        value: None,
    };
    assert_eq!(
        Line::from_bytes(2, &[1, 0xE8, 0xFF, 0xFF, 0xFF, 0xFF, 0xFF, 0xFF, 0xFF]),
        line(2, -24)
    );
    assert_eq!(
        Line::from_bytes(2, &[1, 0x10, 0x0E, 0, 0, 0, 0, 0, 0]),
        line(2, 3_600)
    );
    assert_eq!(Line::from_bytes(2, &[0; 9]), absent);
    assert_eq!(Line::from_bytes(2, &[2, 1, 0, 0, 0, 0, 0, 0, 0]), absent);
}

fn finding(rule: u8, class: Class, place: u16) -> Finding {
    Finding { rule, class, place }
}

#[test]
fn a_finding_is_a_sentence_that_names_its_place() {
    for (finding, sentence) in [
        (finding(11, Class::Note, 1), "Note 11, segment 1: the leak rate is above the allowance."),
        (finding(18, Class::Fault, 0), "Fault 18: no filter was weighed."),
        (
            finding(10, Class::Fault, 64),
            "Fault 10, point 64: the point was sampled for less than 120 seconds.",
        ),
        (
            finding(17, Class::Fault, 8),
            "Fault 17, weighing 8: the two final weights differ by more than 0.5 mg and more than 1 percent of the net weight.",
        ),
        (
            finding(1, Class::Fault, 0),
            "Fault 1: the meter has no certificate of the run's day or earlier with the same maker, serial and letter.",
        ),
        (
            finding(4, Class::Fault, 0),
            "Fault 4: the meter has no certificate later than the run's day with the same maker, serial and letter.",
        ),
        (
            finding(5, Class::Note, 0),
            "Note 5: the meter's factor moved by more than 5 percent, and Y is the lower of the two.",
        ),
        (
            finding(5, Class::Fault, 0),
            "Fault 5: the meter's factor moved by more than 5 percent, and Y is the earlier of the two.",
        ),
    ] {
        assert_eq!(finding.to_string(), sentence);
    }
}

#[test]
fn a_finding_from_its_bytes() {
    assert_eq!(
        Finding::from_bytes(&[11, 2, 1, 0]),
        finding(11, Class::Note, 1)
    );
    assert_eq!(
        Finding::from_bytes(&[10, 1, 2, 1]),
        finding(10, Class::Fault, 258)
    );
    for class in [0, 3, 255] {
        assert_eq!(Finding::from_bytes(&[1, class, 0, 0]).class, Class::Fault);
    }
}

#[test]
fn numbers_that_nothing_has_are_said_to_be_none() {
    for number in [0, 21, 255] {
        assert_eq!(
            line(number, -5).to_string(),
            format!("{number:2}          no such line  -5")
        );
        assert_eq!(texts::line(number), None);
    }
    for number in [0, 13, 21, 255] {
        assert_eq!(
            finding(number, Class::Fault, 0).to_string(),
            format!("Fault {number}: no rule has that number.")
        );
        assert_eq!(texts::rule(number), None);
    }
    // A place that a rule does not have is not hidden.
    let sentence = finding(18, Class::Fault, 3).to_string();
    assert_eq!(sentence, "Fault 18, place 3: no filter was weighed.");
    let nowhere = finding(11, Class::Note, 0).to_string();
    assert_eq!(nowhere, "Note 11: the leak rate is above the allowance.");
}

#[test]
fn the_rules_each_have_a_clause_of_their_own() {
    let mut clauses: Vec<_> = texts::RULES.iter().map(|rule| rule.clause).collect();
    clauses.sort_unstable();
    clauses.dedup();
    assert_eq!(clauses.len(), texts::RULES.len());
    let rising = texts::RULES
        .windows(2)
        .all(|two| two[0].number < two[1].number);
    assert!(rising, "the table is in order, none twice");
}

#[test]
fn of_rule_5_alone_the_class_says_more_than_the_rule() {
    for rule in 0..=u8::MAX {
        for class in [Class::Note, Class::Fault] {
            let texts = texts::CLASSES.iter();
            let own = texts.filter(|text| (text.rule, text.class) == (rule, class));
            assert_eq!(own.count(), usize::from(rule == 5));
            let says_more = finding(rule, class, 0).to_string().contains(", and Y is ");
            assert_eq!(says_more, rule == 5);
        }
    }
}

#[test]
fn a_missing_certificate_is_said_to_be_one_by_maker_serial_and_letter() {
    for number in 1..=4 {
        let clause = texts::rule(number).unwrap().clause;
        assert!(
            clause.ends_with(" with the same maker, serial and letter"),
            "{clause}"
        );
    }
}

#[test]
fn a_run_is_its_verdict_then_its_lines_then_its_findings() {
    let run = Reduced {
        number: 7,
        accepted: true,
        lines: std::array::from_fn(|index| line(index as u8 + 1, 1)),
        findings: vec![finding(5, Class::Note, 0), finding(11, Class::Note, 2)],
    };
    let text = run.to_string();
    let rows: Vec<&str> = text.split('\n').collect();
    assert_eq!(rows.len(), 23);
    assert_eq!(rows[0], "Run 7 is ACCEPTED.");
    assert_eq!(rows[1], " 1                  Time  1 s");
    assert_eq!(rows[20], "20         Concentration  0.00001 gr/dscf");
    assert!(rows[21].starts_with("Note 5: ") && rows[22].starts_with("Note 11, segment 2: "));
    let run = Reduced {
        number: 999,
        accepted: false,
        findings: vec![],
        ..run
    };
    let text = run.to_string();
    assert!(text.starts_with("Run 999 is VOID.\n"));
    assert!(text.ends_with("20         Concentration  0.00001 gr/dscf"));
}

#[test]
fn a_refusal_about_a_byte_names_it() {
    let refusal = Refusal {
        number: 5,
        place: 167,
    };
    let said = "refusal 5 at byte 167: a field is out of its range";
    assert_eq!(refusal.to_string(), said);
    assert_eq!(Error::Refused(refusal).to_string(), said);
}

#[test]
fn a_refusal_about_a_byte_of_the_figure_says_so() {
    let refusal = Refusal {
        number: 14,
        place: 5,
    };
    let said = "refusal 14 at byte 5 of the figure: the figure ends early, has a field out of \
                range or order, or has bytes left over";
    assert_eq!(refusal.to_string(), said);
    assert!(refusal.is_about_the_figure());
    for number in (0..14).chain(15..20) {
        let other = Refusal { number, place: 5 };
        assert!(!other.is_about_the_figure() && !other.to_string().contains("figure"));
    }
}

#[test]
fn a_refusal_about_no_byte_names_none() {
    for number in [9, 10, 11, 15] {
        let said = Refusal { number, place: 0 }.to_string();
        assert!(!said.contains("byte"), "{said}");
    }
}

#[test]
fn every_refusal_has_a_cause_of_its_own() {
    let cause = |number| Refusal { number, place: 0 }.cause();
    let mut causes: Vec<_> = (1..=11).chain([14, 15]).map(cause).collect();
    for none in [0, 12, 13, 16, u32::MAX] {
        assert_eq!(cause(none), "no refusal has that number");
    }
    causes.sort_unstable();
    causes.dedup();
    assert_eq!(causes.len(), texts::REFUSALS.len());
}

#[test]
fn an_unreached_call_says_why() {
    let error = Error::Unreached("it is not there".into());
    assert!(error.to_string().ends_with(": it is not there"));
}
