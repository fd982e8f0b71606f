//! The tables of the job file and of the figure file, row by row those of
//! docs/RULES.md, and their lengths.

use leverbonnet::field::{
    Field, Record, Version, CERTIFICATE, FIGURE_HEADER, HEADER, INSTRUMENTS, POINT, RUN, SEGMENT,
    STEP, STEPS, WEIGHING,
};

const RULES: &str = include_str!("../../docs/RULES.md");

const RECORDS: [(&str, Record); 9] = [
    ("### Header, 9 bytes", HEADER),
    (
        "### Certificate, 16 bytes in version 1, 17 in version 2",
        CERTIFICATE,
    ),
    (
        "### Run, 64 bytes in version 1, 67 in version 2, and what follows them",
        RUN,
    ),
    ("### Point, 12 bytes", POINT),
    ("### Segment, 4 bytes", SEGMENT),
    ("### Weighing, 14 bytes", WEIGHING),
    ("### Figure header, 5 bytes", FIGURE_HEADER),
    ("### Steps, 1 byte", STEPS),
    ("### Step, 4 bytes", STEP),
];

/// The head of a table: one column of places where both versions have the same,
/// and else two.
const SAME_PLACES: &str = "| At | Type | Field | Range | Unit |";
const OWN_PLACES: &str = "| Version 1 | Version 2 | Type | Field | Range | Unit |";

/// The cells of the first table behind that line, without its head.
fn table(line: &str) -> Vec<Vec<String>> {
    let behind = RULES.lines().skip_while(|one| *one != line);
    let mut rows = behind.skip_while(|one| !one.starts_with('|'));
    let ruled = rows.nth(1).unwrap_or_else(|| panic!("no table: {line}"));
    assert!(ruled.starts_with("|---"), "{ruled}");
    rows.take_while(|one| one.starts_with('|'))
        .map(cells)
        .collect()
}

fn cells(row: &str) -> Vec<String> {
    let inner = row.strip_prefix('|').and_then(|row| row.strip_suffix('|'));
    let inner = inner.expect("a row stands between bars");
    inner.split('|').map(|cell| cell.trim().into()).collect()
}

/// Whether its length and its places are not the same in both versions.
fn differs(record: &Record) -> bool {
    record.length_in(Version::One) != record.length_in(Version::Two)
}

fn row(record: &Record, field: &Field) -> Vec<String> {
    let place = |version| match record.place_in(version, field) {
        Some(place) => place.to_string(),
        None => String::new(),
    };
    let mut places = vec![place(Version::One), place(Version::Two)];
    if !differs(record) {
        places.dedup();
    }
    let words = [field.holds.name(), field.name, field.range, field.unit];
    places.extend(words.map(String::from));
    places
}

#[test]
fn every_row_is_the_same() {
    for (heading, record) in RECORDS {
        let rows = record.fields.iter().map(|field| row(&record, field));
        assert_eq!(rows.collect::<Vec<_>>(), table(heading), "{heading}");
    }
}

#[test]
fn every_table_of_fields_is_compared() {
    let tables = |head| RULES.lines().filter(|line| *line == head).count();
    let differing = RECORDS.iter().filter(|(_, record)| differs(record)).count();
    assert_eq!(tables(OWN_PLACES), differing);
    assert_eq!(tables(SAME_PLACES), RECORDS.len() - differing);
}

#[test]
fn the_lengths_of_a_record_are_those_of_its_heading() {
    for (heading, record) in RECORDS {
        let (one, two) = (
            record.length_in(Version::One),
            record.length_in(Version::Two),
        );
        let lengths = if differs(&record) {
            format!("{one} bytes in version 1, {two} in version 2")
        } else if one == 1 {
            "1 byte".into()
        } else {
            format!("{one} bytes")
        };
        let (_, words) = heading.split_once(", ").expect("a heading has a length");
        let words = words
            .strip_suffix(", and what follows them")
            .unwrap_or(words);
        assert_eq!(words, lengths);
    }
}

#[test]
fn the_fields_of_a_record_fill_it_in_either_version() {
    for (heading, record) in RECORDS {
        for version in [Version::One, Version::Two] {
            let mut end = 0;
            for field in record.fields {
                if let Some(place) = record.place_in(version, field) {
                    assert_eq!(place, end, "{heading}: {}", field.name);
                    assert_eq!(record.field_at(version, place), Some(field));
                    end += field.holds.length();
                }
            }
            assert_eq!(end, record.length_in(version), "{heading}");
            assert_eq!(record.field_at(version, end), None);
        }
    }
}

/// The least and the greatest of a count.
fn ends(record: &Record, count: &str) -> [usize; 2] {
    let field = record.field(count).expect("it is counted");
    let (least, greatest) = field.range.split_once(" to ").expect("a range has ends");
    [least, greatest].map(|end| end.parse().expect("an end is a number"))
}

/// The shortest and the longest job.
fn job_lengths(version: Version) -> [usize; 2] {
    let parts = [
        (POINT, ends(&RUN, "number of points")),
        (SEGMENT, ends(&RUN, "number of segments")),
        (WEIGHING, ends(&RUN, "number of weighings")),
    ];
    let certificates = ends(&HEADER, "number of certificates");
    let runs = ends(&HEADER, "number of runs");
    [0, 1].map(|end| {
        let parts = parts.iter().map(|(part, count)| count[end] * part.length);
        let run = RUN.length_in(version) + parts.sum::<usize>();
        HEADER.length + certificates[end] * CERTIFICATE.length_in(version) + runs[end] * run
    })
}

#[test]
fn the_lengths_of_a_job_are_those_of_its_records() {
    let rows = table("## The job file");
    assert_eq!(rows.len(), 2);
    for (cells, version) in rows.iter().zip([Version::One, Version::Two]) {
        let [shortest, longest] = job_lengths(version);
        let lengths = [
            CERTIFICATE.length_in(version),
            RUN.length_in(version),
            shortest,
            longest,
        ];
        let lengths = lengths.map(|length| format!("{length} bytes"));
        let cells = cells.iter().map(|cell| cell.replace(',', ""));
        assert_eq!(cells.skip(1).collect::<Vec<_>>(), lengths);
    }
}

#[test]
fn the_lengths_of_a_figure_are_those_of_its_records() {
    let steps = ends(&STEPS, "number of steps");
    let [shortest, longest] =
        steps.map(|steps| FIGURE_HEADER.length + 2 * (STEPS.length + steps * STEP.length));
    let sentence = format!("A figure has from {shortest} to {longest} bytes.");
    assert!(RULES.contains(&sentence), "{sentence}");
}

#[test]
fn the_values_by_the_kind_are_the_same() {
    let rows = table("The values by the kind:");
    assert_eq!(rows.len(), INSTRUMENTS.len());
    for (cells, instrument) in rows.iter().zip(INSTRUMENTS) {
        let [first, second, third] = instrument.values;
        let name = first.name.strip_prefix("first ").unwrap_or(first.name);
        let worded = format!("{name} in {}, {}", first.unit, first.range);
        let others = match (second.range, second.unit) {
            same if same == (first.range, first.unit) => "diameters too, the same range",
            (range, _) => range,
        };
        let kind = instrument.kind.to_string();
        assert_eq!(*cells, [&kind, instrument.name, &worded, others]);
        assert_eq!((second.range, second.unit), (third.range, third.unit));
    }
}

#[test]
fn the_values_by_the_kind_stand_where_the_certificate_has_them() {
    for instrument in INSTRUMENTS {
        let values = CERTIFICATE.fields[5..].iter();
        for (value, field) in instrument.values.iter().zip(values) {
            assert_eq!((value.at, value.holds), (field.at, field.holds));
            assert_eq!(field.range, "by the kind");
        }
    }
}
