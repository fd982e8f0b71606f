//! Jobs worth showing: the worked job of docs/RULES.md, one of several runs, one at the
//! limits of the percent isokinetic, one at those of a weighing, one with a rebuilt meter
//! and the same without its letter, one with factors that moved in each version, one with
//! fewer points than the house rule wants and one with just as many, one with numbers of
//! points that a figure does not take, one that is refused, and the longest that a file of
//! each version can hold. And a figure, whose steps are made up and stand for nobody's.

use crate::figure::{Figure, Step};
use crate::job::*;

const ABC_METER: Instrument = instrument(b"ABC", 10_442);
const XYZ_METER: Instrument = instrument(b"XYZ", 10_442);
const PITOT: Instrument = instrument(b"ABC", 1);
const NOZZLE: Instrument = instrument(b"ABC", 2);
const WORN_NOZZLE: Instrument = instrument(b"ABC", 3);

const CALIBRATED: u16 = 8_990;
const SAMPLED: u16 = 9_000;
const RECALIBRATED: u16 = 9_020;

const fn instrument(maker: &[u8; 3], serial: u32) -> Instrument {
    Instrument {
        maker: *maker,
        serial,
        letter: NO_LETTER,
    }
}

/// A job by its name among the examples.
pub type Named = (&'static str, fn() -> Job);

const FEWER_POINTS: Named = ("fewer-points", fewer_points);
const MORE_POINTS: Named = ("more-points", more_points);
const SEVERAL_RUNS: Named = ("several-runs", several_runs);
const WRONG_POINTS: Named = ("wrong-points", wrong_points);

/// The samples that stand among the examples with their sheets.
pub const WITH_SHEETS: [Named; 12] = [
    ("worked", worked),
    SEVERAL_RUNS,
    ("percent-limits", percent_limits),
    ("weighing-limits", weighing_limits),
    ("rebuilt-meter", rebuilt_meter),
    ("rebuilt-meter-no-letter", rebuilt_meter_no_letter),
    ("moved-factor", moved_factor),
    ("moved-factor-version-2", moved_factor_version_2),
    FEWER_POINTS,
    MORE_POINTS,
    WRONG_POINTS,
    ("refused", refused),
];

/// Those whose findings stand there explained.
pub const EXPLAINED: [Named; 1] = [SEVERAL_RUNS];

/// Those that stand there without.
pub const WITHOUT: [Named; 2] = [
    ("longest", longest),
    ("longest-version-2", longest_version_2),
];

/// A figure by its name there, and the samples that stand in the folder of that name: those
/// with their sheets by it, and those with their findings explained.
pub struct NamedFigure {
    pub name: &'static str,
    pub figure: fn() -> Figure,
    pub with_sheets: [Named; 3],
    pub explained: [Named; 1],
}

pub const FIGURES: [NamedFigure; 1] = [NamedFigure {
    name: "made-up",
    figure: made_up,
    with_sheets: [FEWER_POINTS, MORE_POINTS, WRONG_POINTS],
    explained: [WRONG_POINTS],
}];

/// The job whose whole sheet the rules print: one accepted run with one note.
pub fn worked() -> Job {
    Job {
        version: Version::One,
        certificates: beside_the_meters(&[
            meter(ABC_METER, CALIBRATED, 10_000),
            meter(ABC_METER, RECALIBRATED, 9_800),
        ]),
        runs: vec![worked_run()],
    }
}

/// The worked job's certificates, but with these of meters.
fn beside_the_meters(meters: &[Certificate]) -> Vec<Certificate> {
    let probe = [
        pitot(PITOT, CALIBRATED, 840),
        nozzle(NOZZLE, CALIBRATED, [250, 250, 250]),
    ];
    [meters, &probe].concat()
}

/// The worked job's run with that number, day and meter.
fn with_meter(number: u16, day: u16, meter: Instrument) -> Run {
    Run {
        number,
        day,
        meter,
        ..worked_run()
    }
}

fn meter(instrument: Instrument, day: u16, factor: u16) -> Certificate {
    Certificate::new(Kind::Meter, instrument, day, [factor, 0, 0])
}

fn pitot(instrument: Instrument, day: u16, coefficient: u16) -> Certificate {
    Certificate::new(Kind::Pitot, instrument, day, [coefficient, 0, 0])
}

fn nozzle(instrument: Instrument, day: u16, values: [u16; 3]) -> Certificate {
    Certificate::new(Kind::Nozzle, instrument, day, values)
}

fn weighing(kind: WeighingKind, tare: u32, first_final: u32, second_final: u32) -> Weighing {
    Weighing {
        kind,
        tare,
        first_final,
        second_final,
    }
}

fn worked_run() -> Run {
    Run {
        number: 7,
        day: SAMPLED,
        meter: ABC_METER,
        pitot: PITOT,
        nozzle: NOZZLE,
        barometer: 3_000,
        stack_static: -68,
        co2: 120,
        o2: 60,
        first_reading: 100_000,
        last_reading: 140_000,
        water: 1_000,
        shape: Shape::Round,
        sides: [240, 0],
        to_next_disturbance: 480,
        from_last_disturbance: 1_920,
        blank_residue: 8,
        blank_volume: 200,
        rinse_volume: 100,
        acetone_density: 7_851,
        points: vec![
            Point {
                seconds: 450,
                velocity_head: 500,
                orifice_head: 200,
                stack_temperature: 2_000,
                meter_inlet: 800,
                meter_outlet: 800,
            };
            8
        ],
        segments: vec![Segment {
            seconds: 3_600,
            leak: 30,
        }],
        weighings: vec![
            weighing(WeighingKind::Filter, 4_000, 4_912, 4_910),
            weighing(WeighingKind::Rinse, 1_000_000, 1_000_153, 1_000_150),
        ],
    }
}

/// The worked run in the corner of the ranges where a metered thousandth of a
/// cubic foot, the least there is, becomes the least dry gas.
pub fn thinnest() -> Job {
    let mut job = worked();
    for meter in &mut job.certificates[..2] {
        meter.values[0] = 9_000;
    }
    let run = &mut job.runs[0];
    run.barometer = 2_000;
    run.last_reading = run.first_reading + 1;
    run.segments[0].leak = 0;
    for point in &mut run.points {
        point.orifice_head = 0;
        point.meter_inlet = 1_500;
        point.meter_outlet = 1_500;
    }
    job
}

/// Accepted and void runs side by side. Two makers' meters share the serial
/// 10442, so that a reader can see the maker count.
pub fn several_runs() -> Job {
    let clean = Run {
        number: 1,
        segments: vec![
            Segment {
                seconds: 1_800,
                leak: 0,
            },
            Segment {
                seconds: 1_800,
                leak: 20,
            },
        ],
        ..worked_run()
    };
    let moved_factor = Run {
        number: 2,
        meter: XYZ_METER,
        ..worked_run()
    };
    // The pitot is certified only from day 8990 on.
    let before_the_pitot = Run {
        number: 3,
        day: 8_989,
        meter: XYZ_METER,
        ..worked_run()
    };
    let uncertified_meter = Run {
        number: 10,
        meter: instrument(b"XYZ", 10_443),
        ..worked_run()
    };
    let nothing_metered = Run {
        number: 11,
        last_reading: 100_000,
        ..worked_run()
    };
    let no_flow = Run {
        number: 12,
        points: vec![
            Point {
                velocity_head: 0,
                ..worked_run().points[0]
            };
            8
        ],
        ..worked_run()
    };
    let negative_catch = Run {
        number: 13,
        weighings: vec![weighing(WeighingKind::Filter, 4_000, 3_990, 3_980)],
        ..worked_run()
    };
    Job {
        version: Version::One,
        certificates: vec![
            meter(ABC_METER, CALIBRATED, 10_000),
            meter(XYZ_METER, 8_980, 10_300),
            pitot(PITOT, CALIBRATED, 840),
            nozzle(NOZZLE, 8_980, [250, 250, 250]),
            nozzle(WORN_NOZZLE, CALIBRATED, [250, 252, 255]),
            meter(ABC_METER, RECALIBRATED, 9_800),
            meter(XYZ_METER, RECALIBRATED, 9_700),
        ],
        runs: vec![
            clean,
            moved_factor,
            before_the_pitot,
            uncertified_meter,
            nothing_metered,
            no_flow,
            negative_catch,
            rectangular_run(),
            last_recalibration_run(),
        ],
    }
}

/// A rectangular stack with trouble at single points, segments and weighings,
/// sampled through the worn nozzle.
fn rectangular_run() -> Run {
    let mut run = Run {
        number: 20,
        nozzle: WORN_NOZZLE,
        shape: Shape::Rectangular,
        sides: [300, 200],
        to_next_disturbance: 100,
        from_last_disturbance: 2_000,
        ..worked_run()
    };
    run.points = vec![
        Point {
            seconds: 300,
            ..run.points[0]
        };
        12
    ];
    run.points[2].seconds = 119;
    run.points[3].seconds = 481;
    run.segments = vec![
        Segment {
            seconds: 1_200,
            leak: 21,
        },
        Segment {
            seconds: 1_200,
            leak: 20,
        },
        Segment {
            seconds: 1_200,
            leak: 35,
        },
    ];
    run.weighings[1].first_final = 1_000_156;
    run
}

/// Sampled after the meter's last certificate, slowly, in a narrow stack.
fn last_recalibration_run() -> Run {
    Run {
        number: 999,
        day: RECALIBRATED,
        last_reading: 135_000,
        sides: [119, 0],
        ..worked_run()
    }
}

/// Four runs at the limits of the percent isokinetic: a thousandth of a cubic
/// foot short of 90 percent, 90 and 110 percent exactly, and a thousandth past 110.
pub fn percent_limits() -> Job {
    let mut job = worked();
    job.certificates[3] = nozzle(NOZZLE, CALIBRATED, [218, 218, 218]);
    job.runs = vec![
        sampled(1, 432, 34_439),
        sampled(2, 432, 34_440),
        sampled(3, 428, 42_721),
        sampled(4, 428, 42_722),
    ];
    job
}

/// The worked run at that head, tight, with that much metered in 5,000 seconds.
fn sampled(number: u16, velocity_head: u16, metered: u32) -> Run {
    let mut run = Run {
        number,
        ..worked_run()
    };
    run.last_reading = run.first_reading + metered;
    for point in &mut run.points {
        point.seconds = 625;
        point.velocity_head = velocity_head;
    }
    run.segments[0] = Segment {
        seconds: 5_000,
        leak: 0,
    };
    run
}

/// Six runs at the limits of a weighing. The first final weight is the higher one in
/// each, so that a net taken from it would let pass what must not.
pub fn weighing_limits() -> Job {
    let mut job = worked();
    job.runs = vec![
        weighed(1, 600, 6),
        weighed(2, 599, 6),
        weighed(3, 90_000, 900),
        weighed(4, 90_000, 901),
        weighed(5, -600, 5),
        weighed(6, -600, 6),
    ];
    job
}

/// The worked run, tight, with a filter of that net whose final weights are that far
/// apart, and a rinse that outweighs what a filter lost.
fn weighed(number: u16, net: i32, difference: u32) -> Run {
    let tare = 4_000;
    let second_final = (tare as i32 + net) as u32;
    let mut run = Run {
        number,
        weighings: vec![
            weighing(
                WeighingKind::Filter,
                tare,
                second_final + difference,
                second_final,
            ),
            weighing(WeighingKind::Rinse, 1_000_000, 1_001_000, 1_001_000),
        ],
        ..worked_run()
    };
    run.segments[0].leak = 0;
    run
}

/// A meter is rebuilt on day 9008 and has the letter A from then on. Sampled before
/// that, after that but before its next certificate, and after that one.
pub fn rebuilt_meter() -> Job {
    let rebuilt = Instrument {
        letter: b'A',
        ..ABC_METER
    };
    Job {
        version: Version::Two,
        certificates: beside_the_meters(&[
            meter(ABC_METER, CALIBRATED, 10_000),
            meter(ABC_METER, 9_005, 10_020),
            meter(rebuilt, 9_010, 9_800),
            meter(rebuilt, RECALIBRATED, 9_790),
        ]),
        runs: vec![
            with_meter(7, SAMPLED, ABC_METER),
            with_meter(8, 9_009, rebuilt),
            with_meter(9, 9_012, rebuilt),
        ],
    }
}

/// The same in version 1, which has no letters: run 8 is worked with a certificate
/// from before the rebuild.
pub fn rebuilt_meter_no_letter() -> Job {
    let mut job = rebuilt_meter();
    job.version = Version::One;
    for instrument in job.instruments_mut() {
        instrument.letter = NO_LETTER;
    }
    job
}

/// Three meters whose factor was 10,000 when the worked run was sampled with them. It is
/// then 5 percent higher, which is not too much; higher by more; lower by more.
pub fn moved_factor() -> Job {
    let [steady, risen, fallen] = [10_442, 10_443, 10_444].map(|serial| instrument(b"ABC", serial));
    Job {
        version: Version::One,
        certificates: beside_the_meters(&[
            meter(steady, CALIBRATED, 10_000),
            meter(steady, RECALIBRATED, 10_500),
            meter(risen, CALIBRATED, 10_000),
            meter(risen, RECALIBRATED, 10_501),
            meter(fallen, CALIBRATED, 10_000),
            meter(fallen, RECALIBRATED, 9_499),
        ]),
        runs: vec![
            with_meter(7, SAMPLED, steady),
            with_meter(8, SAMPLED, risen),
            with_meter(9, SAMPLED, fallen),
        ],
    }
}

/// The same in version 2: the two runs whose factor moved are void, and every Y is 10,000.
pub fn moved_factor_version_2() -> Job {
    Job {
        version: Version::Two,
        ..moved_factor()
    }
}

/// Some of its numbers of points are not allowed for their shape, and are raised.
pub fn made_up() -> Figure {
    Figure {
        from_last: vec![
            step(0, 40, 42),
            step(300, 30, 30),
            step(500, 16, 20),
            step(700, 12, 12),
        ],
        to_next: vec![step(0, 36, 36), step(100, 14, 18), step(150, 8, 9)],
    }
}

fn step(least_distance: u16, round: u8, rectangular: u8) -> Step {
    Step {
        least_distance,
        round,
        rectangular,
    }
}

/// Two runs with fewer points than the house rule wants, and as many as `made_up` asks
/// for: 16 of a round stack by the last disturbance, and 20, raised from 18, of a
/// rectangular one by the next.
pub fn fewer_points() -> Job {
    let mut job = worked();
    job.runs = vec![
        traversed(7, Shape::Round, [300, 1_440], 16),
        traversed(8, Shape::Rectangular, [300, 1_800], 20),
    ];
    job
}

/// Two runs with as many points as the house rule wants, and fewer than `made_up` asks
/// for: 36 of a round stack by the next disturbance, and 42 of a rectangular one by the
/// last.
pub fn more_points() -> Job {
    let mut job = worked();
    job.runs = vec![
        traversed(7, Shape::Round, [180, 1_920], 24),
        traversed(8, Shape::Rectangular, [300, 600], 25),
    ];
    job
}

/// Three runs with too few points for `made_up`, with a number that no rectangle has, and
/// with both troubles of a round stack; and one with points enough, which drew too much
/// through a meter that was rebuilt.
pub fn wrong_points() -> Job {
    let rebuilt = Instrument {
        letter: b'A',
        ..ABC_METER
    };
    let drew_too_much = Run {
        meter: rebuilt,
        last_reading: 145_000,
        ..traversed(10, Shape::Round, [300, 1_440], 16)
    };
    Job {
        version: Version::Two,
        certificates: beside_the_meters(&[
            meter(ABC_METER, CALIBRATED, 10_000),
            meter(ABC_METER, RECALIBRATED, 9_800),
            meter(rebuilt, 8_995, 9_900),
            meter(rebuilt, RECALIBRATED, 9_900),
        ]),
        runs: vec![
            traversed(7, Shape::Round, [180, 1_920], 24),
            traversed(8, Shape::Rectangular, [300, 1_800], 24),
            traversed(9, Shape::Round, [180, 1_920], 18),
            drew_too_much,
        ],
    }
}

/// The worked run, tight, in a stack of that shape and of 24 in, with the next and the
/// last disturbance at those distances, and its time given to so many points.
fn traversed(number: u16, shape: Shape, [next, last]: [u16; 2], points: u16) -> Run {
    let mut run = Run {
        number,
        shape,
        sides: match shape {
            Shape::Round => [240, 0],
            Shape::Rectangular => [200, 300],
        },
        to_next_disturbance: next,
        from_last_disturbance: last,
        ..worked_run()
    };
    run.segments[0].leak = 0;
    let seconds = run.segments[0].seconds / points;
    run.points = vec![
        Point {
            seconds,
            ..run.points[0]
        };
        usize::from(points)
    ];
    run
}

/// Refused with 5: the third point's stack temperature is -40.1 F.
pub fn refused() -> Job {
    let mut job = worked();
    job.runs[0].points[2].stack_temperature = -401;
    job
}

/// 17,161 bytes: every count at its greatest. The last run's certificates
/// stand last.
pub fn longest() -> Job {
    let certificates = (1..=16).flat_map(certificates_of_longest).collect();
    let runs = (1..=16).map(run_of_longest).collect();
    Job {
        version: Version::One,
        certificates,
        runs,
    }
}

/// 17,273 bytes: the same in version 2, with letters, from none to O, where
/// `longest` has the serials from 1 to 16. They alone tell its meters apart, and so
/// its pitots and its nozzles.
pub fn longest_version_2() -> Job {
    let mut job = longest();
    job.version = Version::Two;
    for instrument in job.instruments_mut() {
        instrument.letter = match instrument.serial {
            1 => NO_LETTER,
            serial => b'A' + serial as u8 - 2,
        };
        instrument.serial = 1;
    }
    job
}

fn instruments_of_longest(k: u16) -> [Instrument; 3] {
    let serial = u32::from(k);
    [
        instrument(b"MET", serial),
        instrument(b"PIT", serial),
        instrument(b"NOZ", serial),
    ]
}

fn certificates_of_longest(k: u16) -> [Certificate; 4] {
    let [meter_used, pitot_used, nozzle_used] = instruments_of_longest(k);
    [
        meter(meter_used, CALIBRATED, 9_900 + 10 * k),
        meter(meter_used, RECALIBRATED, 10_100 - 10 * k),
        pitot(pitot_used, CALIBRATED, 836 + k / 2),
        nozzle(nozzle_used, CALIBRATED, [250, 250 + k % 4, 251]),
    ]
}

fn run_of_longest(k: u16) -> Run {
    let [meter, pitot, nozzle] = instruments_of_longest(k);
    Run {
        number: 62 * k,
        meter,
        pitot,
        nozzle,
        barometer: 2_950 + 5 * k,
        first_reading: 1_000_000 * u32::from(k),
        last_reading: 1_000_000 * u32::from(k) + 106_000,
        water: 2_600 + 10 * k,
        sides: [600 + k, 0],
        to_next_disturbance: 400 + k,
        from_last_disturbance: 3_000,
        points: (1..=64).map(|i| point_of_longest(k, i)).collect(),
        segments: (1..=16)
            .map(|i| Segment {
                seconds: 600,
                leak: i + k,
            })
            .collect(),
        weighings: (1..=8).map(|i| weighing_of_longest(k, i)).collect(),
        ..worked_run()
    }
}

fn point_of_longest(k: u16, i: u16) -> Point {
    Point {
        seconds: 150,
        velocity_head: 430 + (7 * i + 11 * k) % 150,
        orifice_head: 160 + (5 * i + 3 * k) % 80,
        stack_temperature: 1_900 + ((13 * i + k) % 200) as i16,
        meter_inlet: 780 + (i + k) as i16,
        meter_outlet: 760 + i as i16,
    }
}

fn weighing_of_longest(k: u16, i: u16) -> Weighing {
    let kind = if i <= 4 {
        WeighingKind::Filter
    } else {
        WeighingKind::Rinse
    };
    let tare = 4_000 * u32::from(i);
    let second_final = tare + 200 + u32::from(k);
    weighing(kind, tare, second_final + u32::from(i % 6), second_final)
}
