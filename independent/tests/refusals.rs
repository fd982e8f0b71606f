//! Every refusal number, its place in either version, and which trouble is met first.

use independent::job::{Job, Run, Segment, Shape, Version};
use independent::{reduce, run_count, run_number, samples, sheet};

/// The worked job in a version, and where its parts start.
struct Worked {
    version: Version,
    certificates: [usize; 4],
    run: usize,
    point: usize,
    weighing: usize,
    end: usize,
}

const WORKED: [Worked; 2] = [
    worked_in(Version::One, 16, 64),
    worked_in(Version::Two, 17, 67),
];

const fn worked_in(version: Version, certificate_length: usize, run_length: usize) -> Worked {
    let run = 9 + 4 * certificate_length;
    let point = run + run_length;
    let weighing = point + 8 * 12 + 4;
    Worked {
        version,
        certificates: [
            9,
            9 + certificate_length,
            9 + 2 * certificate_length,
            9 + 3 * certificate_length,
        ],
        run,
        point,
        weighing,
        end: weighing + 2 * 14,
    }
}

/// The place of a field in its record: in version 1, and in version 2.
type Place = [usize; 2];

impl Worked {
    fn place(&self, record: usize, field: Place) -> usize {
        let [in_one, in_two] = field;
        record
            + match self.version {
                Version::One => in_one,
                Version::Two => in_two,
            }
    }

    fn bytes(&self) -> Vec<u8> {
        self.with(|_| {})
    }

    fn with(&self, change: impl Fn(&mut Job)) -> Vec<u8> {
        let mut job = Job {
            version: self.version,
            ..samples::worked()
        };
        change(&mut job);
        job.bytes()
    }

    fn with_bytes(&self, at: usize, values: &[u8]) -> Vec<u8> {
        let mut job = self.bytes();
        job[at..at + values.len()].copy_from_slice(values);
        job
    }

    fn with_byte(&self, at: usize, value: u8) -> Vec<u8> {
        self.with_bytes(at, &[value])
    }
}

/// What the job's reading answers, and no other call answers anything else.
fn refused(job: &[u8]) -> (u64, usize) {
    let answer = run_count(job);
    let mut lines = [0xA5; 200];
    let mut findings = [0x5A; 40];
    assert_eq!(reduce(job, 7, &mut lines, &mut findings), answer);
    assert_eq!((lines, findings), ([0xA5; 200], [0x5A; 40]));
    assert_eq!(run_number(job, 0), answer);
    let (number, place) = (answer >> 32, answer & 0xFFFF_FFFF);
    assert_eq!(
        sheet(job),
        format!("REFUSED {number} {place}\n").into_bytes()
    );
    (number, place as usize)
}

#[test]
fn the_empty_file() {
    assert_eq!(refused(&[]), (1, 0));
}

#[test]
fn every_truncation_is_incomplete_at_its_length() {
    for worked in WORKED {
        let job = worked.bytes();
        assert_eq!(job.len(), worked.end);
        for length in 0..job.len() {
            assert_eq!(refused(&job[..length]), (1, length));
        }
    }
}

#[test]
fn header() {
    for worked in WORKED {
        let with_byte = |at, value| refused(&worked.with_byte(at, value));
        assert_eq!(with_byte(2, b'K'), (2, 0));
        assert_eq!(with_byte(5, 65), (4, 5));
        assert_eq!(with_byte(6, 1), (4, 5));
        assert_eq!(with_byte(7, 0), (4, 7));
        assert_eq!(with_byte(7, 17), (4, 7));
    }
}

#[test]
fn versions_other_than_1_and_2() {
    for worked in WORKED {
        for version in [0, 3, 256, 257, 258, 512, 65_535_u16] {
            let job = worked.with_bytes(3, &version.to_le_bytes());
            assert_eq!(refused(&job), (3, 3), "version {version}");
        }
        assert_eq!(run_count(&worked.bytes()), 1);
    }
}

#[test]
fn counts_of_a_run() {
    let (points, segments, weighings) = ([60, 63], [61, 64], [62, 65]);
    for worked in WORKED {
        for (count, out_of_range) in [
            (points, 0),
            (points, 65),
            (segments, 0),
            (segments, 17),
            (weighings, 9),
        ] {
            let place = worked.place(worked.run, count);
            let job = worked.with_byte(place, out_of_range);
            assert_eq!(refused(&job), (4, place));
        }
    }
}

#[test]
fn a_maker_is_one_field() {
    for worked in WORKED {
        let certificate = worked.certificates[0];
        for letter in 1..=3 {
            for value in [b'@', b'[', b'a', 0, 255] {
                let job = worked.with_byte(certificate + letter, value);
                assert_eq!(refused(&job), (5, certificate + 1));
            }
        }
    }
}

#[test]
fn fields_with_one_value() {
    let (second_value, third_value) = ([12, 13], [14, 15]);
    let (second_side, spare_byte) = ([46, 49], [63, 66]);
    for worked in WORKED {
        let [meter, _, pitot, _] = worked.certificates;
        for place in [
            worked.place(meter, second_value),
            worked.place(meter, third_value),
            worked.place(pitot, second_value),
            worked.place(worked.run, second_side),
        ] {
            assert_eq!(refused(&worked.with_byte(place, 1)), (5, place));
            assert_eq!(refused(&worked.with_byte(place + 1, 1)), (5, place));
        }
        for place in [worked.place(worked.run, spare_byte), worked.weighing + 1] {
            assert_eq!(refused(&worked.with_byte(place, 1)), (5, place));
        }
    }
}

#[test]
fn kinds_and_shapes() {
    for worked in WORKED {
        for (place, values) in [
            (worked.certificates[0], [0, 4]),
            (worked.place(worked.run, [43, 46]), [0, 3]),
            (worked.weighing, [0, 3]),
        ] {
            for value in values {
                assert_eq!(refused(&worked.with_byte(place, value)), (5, place));
            }
        }
    }
}

impl Worked {
    /// A job that is read, and the same one step further, refused with 5 there.
    fn edge(&self, place: usize, inside: impl Fn(&mut Job), outside: impl Fn(&mut Job)) {
        assert_eq!(run_count(&self.with(inside)), 1, "inside, {place}");
        assert_eq!(refused(&self.with(outside)), (5, place));
    }
}

#[test]
fn ends_of_a_certificates_ranges() {
    let (first_value, second_value, third_value) = ([10, 11], [12, 13], [14, 15]);
    for worked in WORKED {
        for (certificate, value, field, inside, outside) in [
            (0, 0, first_value, 9_000, 8_999),
            (0, 0, first_value, 11_000, 11_001),
            (2, 0, first_value, 500, 499),
            (2, 0, first_value, 1_000, 1_001),
            (3, 0, first_value, 100, 99),
            (3, 0, first_value, 1_000, 1_001),
            (3, 1, second_value, 100, 99),
            (3, 1, second_value, 1_000, 1_001),
            (3, 2, third_value, 100, 99),
            (3, 2, third_value, 1_000, 1_001),
        ] {
            worked.edge(
                worked.place(worked.certificates[certificate], field),
                |job| job.certificates[certificate].values[value] = inside,
                |job| job.certificates[certificate].values[value] = outside,
            );
        }
        worked.edge(
            worked.certificates[0] + 4,
            |job| job.certificates[0].instrument.serial = 1,
            |job| job.certificates[0].instrument.serial = 0,
        );
    }
}

/// One end of the range of a field in a run: its place, inside, outside, set.
type RunEdge = (Place, i64, i64, fn(&mut Run, i64));

#[test]
fn ends_of_a_runs_ranges() {
    let edges: [RunEdge; 36] = [
        ([0, 0], 1, 0, |r, v| r.number = v as u16),
        ([0, 0], 999, 1_000, |r, v| r.number = v as u16),
        ([7, 7], 1, 0, |r, v| r.meter.serial = v as u32),
        ([14, 15], 1, 0, |r, v| r.pitot.serial = v as u32),
        ([21, 23], 1, 0, |r, v| r.nozzle.serial = v as u32),
        ([25, 28], 2_000, 1_999, |r, v| r.barometer = v as u16),
        ([25, 28], 3_200, 3_201, |r, v| r.barometer = v as u16),
        ([27, 30], -3_000, -3_001, |r, v| r.stack_static = v as i16),
        ([27, 30], 3_000, 3_001, |r, v| r.stack_static = v as i16),
        ([29, 32], 940, 1_001, |r, v| r.co2 = v as u16),
        ([31, 34], 880, 881, |r, v| r.o2 = v as u16),
        ([37, 40], 100_000, 99_999, |r, v| r.last_reading = v as u32),
        ([37, 40], 1_099_999, 1_100_000, |r, v| {
            r.last_reading = v as u32
        }),
        ([33, 36], 140_000, 1_000_000_000, |r, v| {
            r.first_reading = v as u32
        }),
        ([41, 44], 20_000, 20_001, |r, v| r.water = v as u16),
        ([44, 47], 1, 0, |r, v| r.sides[0] = v as u16),
        ([44, 47], 9_999, 10_000, |r, v| r.sides[0] = v as u16),
        ([54, 57], 1, 0, |r, v| r.blank_volume = v as u16),
        ([54, 57], 500, 501, |r, v| r.blank_volume = v as u16),
        ([56, 59], 1_000, 1_001, |r, v| r.rinse_volume = v as u16),
        ([58, 61], 5_000, 4_999, |r, v| r.acetone_density = v as u16),
        ([58, 61], 9_999, 10_000, |r, v| r.acetone_density = v as u16),
        ([64, 67], 450, 0, |r, v| r.points[0].seconds = v as u16),
        ([64, 67], 450, 36_001, |r, v| r.points[0].seconds = v as u16),
        ([66, 69], 10_000, 10_001, |r, v| {
            r.points[0].velocity_head = v as u16
        }),
        ([68, 71], 2_000, 2_001, |r, v| {
            r.points[0].orifice_head = v as u16
        }),
        ([70, 73], -400, -401, |r, v| {
            r.points[0].stack_temperature = v as i16
        }),
        ([70, 73], 20_000, 20_001, |r, v| {
            r.points[0].stack_temperature = v as i16
        }),
        ([72, 75], 1_500, 1_501, |r, v| {
            r.points[0].meter_inlet = v as i16
        }),
        ([74, 77], 0, -1, |r, v| r.points[0].meter_outlet = v as i16),
        ([160, 163], 3_600, 0, |r, v| {
            r.segments[0].seconds = v as u16
        }),
        ([160, 163], 3_600, 36_001, |r, v| {
            r.segments[0].seconds = v as u16
        }),
        ([162, 165], 1_000, 1_001, |r, v| {
            r.segments[0].leak = v as u16
        }),
        ([166, 169], 4_000_000, 4_000_001, |r, v| {
            r.weighings[0].tare = v as u32
        }),
        ([170, 173], 4_000_000, 4_000_001, |r, v| {
            r.weighings[0].first_final = v as u32
        }),
        ([174, 177], 4_000_000, 4_000_001, |r, v| {
            r.weighings[0].second_final = v as u32
        }),
    ];
    for worked in WORKED {
        for (field, inside, outside, set) in edges {
            worked.edge(
                worked.place(worked.run, field),
                |job| set(&mut job.runs[0], inside),
                |job| set(&mut job.runs[0], outside),
            );
        }
    }
}

#[test]
fn a_rectangles_second_side_has_its_own_range() {
    let rectangle = |side| {
        move |job: &mut Job| {
            job.runs[0].shape = Shape::Rectangular;
            job.runs[0].sides[1] = side;
        }
    };
    for worked in WORKED {
        let place = worked.place(worked.run, [46, 49]);
        worked.edge(place, rectangle(1), rectangle(0));
        worked.edge(place, rectangle(9_999), rectangle(10_000));
    }
}

#[test]
fn repeated_certificates_and_falling_run_numbers() {
    for worked in WORKED {
        let repeated = worked.with(|job| {
            let mut again = job.certificates[0];
            again.values[0] = 10_100;
            job.certificates.push(again);
        });
        assert_eq!(refused(&repeated), (6, worked.run));

        for number in [6, 7] {
            let falling = worked.with(|job| {
                let mut second = job.runs[0].clone();
                second.number = number;
                job.runs.push(second);
            });
            assert_eq!(refused(&falling), (6, worked.end));
        }
    }
}

#[test]
fn seconds_that_do_not_agree() {
    for worked in WORKED {
        for seconds in [3_599, 3_601] {
            let job = worked.with(|job| job.runs[0].segments[0].seconds = seconds);
            assert_eq!(refused(&job), (7, worked.run));
        }
        let longest = worked.with(|job| {
            job.runs[0].points[0].seconds = 36_000 - 7 * 450;
            job.runs[0].segments[0].seconds = 36_000;
        });
        assert_eq!(run_count(&longest), 1);
        let too_long = worked.with(|job| {
            job.runs[0].points[0].seconds = 36_001 - 7 * 450;
            job.runs[0].segments[0].seconds = 1;
            let rest = Segment {
                seconds: 36_000,
                leak: 0,
            };
            job.runs[0].segments.push(rest);
        });
        assert_eq!(refused(&too_long), (7, worked.run));
    }
}

#[test]
fn bytes_left_over() {
    for worked in WORKED {
        let mut job = worked.bytes();
        job.extend([0, 0]);
        assert_eq!(refused(&job), (8, worked.end));
    }
    for (longest, length) in [
        (samples::longest(), 17_161),
        (samples::longest_version_2(), 17_273),
    ] {
        let mut job = longest.bytes();
        job.push(0);
        assert_eq!(refused(&job), (8, length));
    }
}

#[test]
fn the_first_trouble_is_answered() {
    for worked in WORKED {
        // A falling run number is seen only once the run's own fields are good.
        let mut job = worked.with(|job| job.runs.push(job.runs[0].clone()));
        let point_seconds = worked.place(worked.end, [64, 67]);
        job[point_seconds] = 0;
        job[point_seconds + 1] = 0;
        assert_eq!(refused(&job), (6, worked.end));
        let spare_byte = worked.place(worked.end, [63, 66]);
        job[spare_byte] = 1;
        assert_eq!(refused(&job), (5, spare_byte));
        // A point cut short is not looked into.
        let mut cut = worked.with_bytes(worked.point, &[0, 0]);
        cut.truncate(worked.point + 11);
        assert_eq!(refused(&cut), (1, worked.point + 11));
        // Field 5 in the run before count 4 further on.
        let density = worked.place(worked.run, [58, 61]);
        let both = worked.with_bytes(density, &[0, 0, 0]);
        assert_eq!(refused(&both), (5, density));
    }
}

#[test]
fn no_such_run_comes_before_a_short_output() {
    for worked in WORKED {
        let job = worked.bytes();
        assert_eq!(reduce(&job, 8, &mut [], &mut []), 10 << 32);
        assert_eq!(reduce(&job, 7, &mut [], &mut []), 9 << 32);
    }
}

#[test]
fn either_output_may_be_too_short() {
    let job = samples::worked().bytes();
    for (line_bytes, finding_bytes) in [(179, 4), (180, 3), (179, 3)] {
        let mut lines = vec![0xA5; line_bytes];
        let mut findings = vec![0xA5; finding_bytes];
        assert_eq!(reduce(&job, 7, &mut lines, &mut findings), 9 << 32);
        assert!(lines.iter().chain(&findings).all(|&byte| byte == 0xA5));
    }
    assert_eq!(reduce(&job, 7, &mut [0; 180], &mut [0; 4]) >> 32, 0);
}
