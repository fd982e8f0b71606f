//! What a call answers: success with a value, or a refusal with its place.

/// Why a call was refused. The discriminants are the refusal numbers.
#[derive(Clone, Copy, Debug, PartialEq, Eq)]
pub enum Reason {
    Incomplete = 1,
    WrongMark = 2,
    WrongVersion = 3,
    CountOutOfRange = 4,
    FieldOutOfRange = 5,
    Repeated = 6,
    SecondsTotal = 7,
    LeftOver = 8,
    OutputTooShort = 9,
    NoSuchRun = 10,
    LayoutOutOfRange = 11,
    Figure = 14,
    NoSuchFinding = 15,
}

/// A reason and the byte of the job, or of the figure, that it is about (0 when it is
/// about none).
#[derive(Clone, Copy, Debug, PartialEq, Eq)]
pub struct Refusal {
    pub reason: Reason,
    pub place: u32,
}

impl Refusal {
    /// A place always fits: no refusal lies past the end of the longest job or figure.
    pub fn new(reason: Reason, place: usize) -> Self {
        Refusal {
            reason,
            place: place as u32,
        }
    }

    pub fn number(self) -> u32 {
        self.reason as u32
    }
}

/// Writes all of it and answers how long it is; nothing when the output is too short.
pub fn written(bytes: &[u8], out: &mut [u8]) -> Result<u32, Refusal> {
    let too_short = Refusal::new(Reason::OutputTooShort, 0);
    let front = out.get_mut(..bytes.len()).ok_or(too_short)?;
    front.copy_from_slice(bytes);
    Ok(bytes.len() as u32)
}

/// Both kinds of result as one word, the refusal's number in the high half.
pub fn answered(result: Result<u32, Refusal>) -> u64 {
    match result {
        Ok(value) => u64::from(value),
        Err(refusal) => u64::from(refusal.number()) << 32 | u64::from(refusal.place),
    }
}
