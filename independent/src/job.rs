//! What a job holds, as values, and a job's bytes made from them. Nothing is
//! checked here: values out of range make a job that reading refuses.

pub const MARK: &[u8; 3] = b"SRJ";
pub const HEADER_LENGTH: usize = 9;
/// Without its letter.
pub const CERTIFICATE_LENGTH: usize = 16;
/// A run's own part, before its points, without its three letters.
pub const RUN_LENGTH: usize = 64;
pub const POINT_LENGTH: usize = 12;
pub const SEGMENT_LENGTH: usize = 4;
pub const WEIGHING_LENGTH: usize = 14;

/// The letter of an instrument that has none.
pub const NO_LETTER: u8 = 0;

/// A version of the job file. Version 2 has a byte behind each serial, for a
/// letter; in version 1 every letter is none. Beside that they differ on a
/// factor that moved: in its finding's class and in Y.
#[derive(Clone, Copy, Debug, PartialEq, Eq)]
pub enum Version {
    One = 1,
    Two = 2,
}

impl Version {
    pub const ALL: [Version; 2] = [Version::One, Version::Two];

    pub fn has_letters(self) -> bool {
        self == Version::Two
    }

    pub fn certificate_length(self) -> usize {
        CERTIFICATE_LENGTH + usize::from(self.has_letters())
    }

    pub fn run_length(self) -> usize {
        RUN_LENGTH + 3 * usize::from(self.has_letters())
    }
}

#[derive(Clone, Debug, PartialEq, Eq)]
pub struct Job {
    pub version: Version,
    pub certificates: Vec<Certificate>,
    pub runs: Vec<Run>,
}

/// What a certificate is about.
#[derive(Clone, Copy, Debug, PartialEq, Eq)]
pub enum Kind {
    Meter = 1,
    Pitot = 2,
    Nozzle = 3,
}

/// How a certificate and a run name the same meter, pitot or nozzle.
#[derive(Clone, Copy, Debug, PartialEq, Eq)]
pub struct Instrument {
    pub maker: [u8; 3],
    pub serial: u32,
    /// A to Z for a rebuilt one, or [`NO_LETTER`].
    pub letter: u8,
}

#[derive(Clone, Copy, Debug, PartialEq, Eq)]
pub struct Certificate {
    pub kind: Kind,
    pub instrument: Instrument,
    pub day: u16,
    /// Meter: factor in 1/10,000, 0, 0. Pitot: coefficient in 1/1,000, 0, 0.
    /// Nozzle: three diameters in 0.001 in.
    pub values: [u16; 3],
}

#[derive(Clone, Copy, Debug, PartialEq, Eq)]
pub enum Shape {
    Round = 1,
    Rectangular = 2,
}

#[derive(Clone, Debug, PartialEq, Eq)]
pub struct Run {
    pub number: u16,
    pub day: u16,
    pub meter: Instrument,
    pub pitot: Instrument,
    pub nozzle: Instrument,
    /// 0.01 in Hg.
    pub barometer: u16,
    /// 0.01 in water.
    pub stack_static: i16,
    /// 0.1 percent.
    pub co2: u16,
    /// 0.1 percent.
    pub o2: u16,
    /// 0.001 cubic ft.
    pub first_reading: u32,
    /// 0.001 cubic ft.
    pub last_reading: u32,
    /// 0.1 ml.
    pub water: u16,
    pub shape: Shape,
    /// 0.1 in; the second is 0 for a round stack.
    pub sides: [u16; 2],
    /// 0.1 in.
    pub to_next_disturbance: u16,
    /// 0.1 in.
    pub from_last_disturbance: u16,
    /// 0.1 mg.
    pub blank_residue: u16,
    /// ml.
    pub blank_volume: u16,
    /// ml.
    pub rinse_volume: u16,
    /// 0.1 mg/ml.
    pub acetone_density: u16,
    pub points: Vec<Point>,
    pub segments: Vec<Segment>,
    pub weighings: Vec<Weighing>,
}

#[derive(Clone, Copy, Debug, PartialEq, Eq)]
pub struct Point {
    pub seconds: u16,
    /// 0.001 in water.
    pub velocity_head: u16,
    /// 0.01 in water.
    pub orifice_head: u16,
    /// 0.1 F.
    pub stack_temperature: i16,
    /// 0.1 F.
    pub meter_inlet: i16,
    /// 0.1 F.
    pub meter_outlet: i16,
}

#[derive(Clone, Copy, Debug, PartialEq, Eq)]
pub struct Segment {
    pub seconds: u16,
    /// 0.001 cfm.
    pub leak: u16,
}

#[derive(Clone, Copy, Debug, PartialEq, Eq)]
pub enum WeighingKind {
    Filter = 1,
    Rinse = 2,
}

/// Weights in 0.1 mg.
#[derive(Clone, Copy, Debug, PartialEq, Eq)]
pub struct Weighing {
    pub kind: WeighingKind,
    pub tare: u32,
    pub first_final: u32,
    pub second_final: u32,
}

impl Weighing {
    /// How far apart the two final weights are.
    pub fn difference(&self) -> i64 {
        (i64::from(self.first_final) - i64::from(self.second_final)).abs()
    }

    /// The second final weight less the tare: below 0 for what lost weight.
    pub fn net(&self) -> i64 {
        i64::from(self.second_final) - i64::from(self.tare)
    }
}

impl Job {
    /// Every place where it names an instrument.
    pub fn instruments_mut(&mut self) -> impl Iterator<Item = &mut Instrument> {
        let certified = self.certificates.iter_mut();
        let used = self.runs.iter_mut();
        certified
            .map(|certificate| &mut certificate.instrument)
            .chain(used.flat_map(|run| [&mut run.meter, &mut run.pitot, &mut run.nozzle]))
    }

    /// In the job's version: letters are left out where it has none.
    pub fn bytes(&self) -> Vec<u8> {
        let mut bytes = Vec::new();
        bytes.extend(MARK);
        bytes.extend((self.version as u16).to_le_bytes());
        bytes.extend((self.certificates.len() as u16).to_le_bytes());
        bytes.extend((self.runs.len() as u16).to_le_bytes());
        for certificate in &self.certificates {
            certificate.append_to(&mut bytes, self.version);
        }
        for run in &self.runs {
            run.append_to(&mut bytes, self.version);
        }
        bytes
    }
}

impl Instrument {
    fn append_to(&self, bytes: &mut Vec<u8>, version: Version) {
        bytes.extend(self.maker);
        bytes.extend(self.serial.to_le_bytes());
        if version.has_letters() {
            bytes.push(self.letter);
        }
    }
}

impl Certificate {
    pub fn new(kind: Kind, instrument: Instrument, day: u16, values: [u16; 3]) -> Self {
        Certificate {
            kind,
            instrument,
            day,
            values,
        }
    }

    fn append_to(&self, bytes: &mut Vec<u8>, version: Version) {
        bytes.push(self.kind as u8);
        self.instrument.append_to(bytes, version);
        bytes.extend(self.day.to_le_bytes());
        for value in self.values {
            bytes.extend(value.to_le_bytes());
        }
    }
}

impl Run {
    /// The instrument of that kind that it was sampled with.
    pub fn instrument(&self, kind: Kind) -> Instrument {
        match kind {
            Kind::Meter => self.meter,
            Kind::Pitot => self.pitot,
            Kind::Nozzle => self.nozzle,
        }
    }

    fn append_to(&self, bytes: &mut Vec<u8>, version: Version) {
        bytes.extend(self.number.to_le_bytes());
        bytes.extend(self.day.to_le_bytes());
        self.meter.append_to(bytes, version);
        self.pitot.append_to(bytes, version);
        self.nozzle.append_to(bytes, version);
        bytes.extend(self.barometer.to_le_bytes());
        bytes.extend(self.stack_static.to_le_bytes());
        bytes.extend(self.co2.to_le_bytes());
        bytes.extend(self.o2.to_le_bytes());
        bytes.extend(self.first_reading.to_le_bytes());
        bytes.extend(self.last_reading.to_le_bytes());
        bytes.extend(self.water.to_le_bytes());
        bytes.push(self.shape as u8);
        bytes.extend(self.sides[0].to_le_bytes());
        bytes.extend(self.sides[1].to_le_bytes());
        bytes.extend(self.to_next_disturbance.to_le_bytes());
        bytes.extend(self.from_last_disturbance.to_le_bytes());
        bytes.extend(self.blank_residue.to_le_bytes());
        bytes.extend(self.blank_volume.to_le_bytes());
        bytes.extend(self.rinse_volume.to_le_bytes());
        bytes.extend(self.acetone_density.to_le_bytes());
        bytes.push(self.points.len() as u8);
        bytes.push(self.segments.len() as u8);
        bytes.push(self.weighings.len() as u8);
        bytes.push(0);
        for point in &self.points {
            point.append_to(bytes);
        }
        for segment in &self.segments {
            segment.append_to(bytes);
        }
        for weighing in &self.weighings {
            weighing.append_to(bytes);
        }
    }
}

impl Point {
    fn append_to(&self, bytes: &mut Vec<u8>) {
        bytes.extend(self.seconds.to_le_bytes());
        bytes.extend(self.velocity_head.to_le_bytes());
        bytes.extend(self.orifice_head.to_le_bytes());
        bytes.extend(self.stack_temperature.to_le_bytes());
        bytes.extend(self.meter_inlet.to_le_bytes());
        bytes.extend(self.meter_outlet.to_le_bytes());
    }
}

impl Segment {
    fn append_to(&self, bytes: &mut Vec<u8>) {
        bytes.extend(self.seconds.to_le_bytes());
        bytes.extend(self.leak.to_le_bytes());
    }
}

impl Weighing {
    fn append_to(&self, bytes: &mut Vec<u8>) {
        bytes.push(self.kind as u8);
        bytes.push(0);
        bytes.extend(self.tare.to_le_bytes());
        bytes.extend(self.first_final.to_le_bytes());
        bytes.extend(self.second_final.to_le_bytes());
    }
}
