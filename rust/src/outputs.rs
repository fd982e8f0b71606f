//! What the calls write: how long it is, and the most that it can be.

/// The lines of a sheet.
pub const LINE_COUNT: usize = 20;

/// Bytes of one line, of all lines, of a finding, of a condition and of a certificate
/// day that explain one, and of a layout's distance.
pub const LINE_LENGTH: usize = 9;
pub const LINES_LENGTH: usize = LINE_COUNT * LINE_LENGTH;
pub const FINDING_LENGTH: usize = 4;
pub const CONDITION_LENGTH: usize = 34;
pub const DAY_LENGTH: usize = 5;
pub const DISTANCE_LENGTH: usize = 4;

/// It is proved that no run has more findings.
pub const MOST_FINDINGS: usize = 98;

/// The largest layouts: 24 points on a diameter, and 49 cells of two distances.
pub const MOST_ROUND: usize = 24;
pub const MOST_RECTANGULAR: usize = 2 * 49;

/// It is proved that no job's text has more characters.
pub const MOST_TEXT: usize = 27_088;

/// It is proved that no finding's explanation has more bytes, nor its text more
/// characters.
pub const MOST_EXPLANATION: usize = 70;
pub const MOST_EXPLANATION_TEXT: usize = 1_024;

/// What a successful `reduce` adds to its count when the run is accepted.
pub const ACCEPTED: u32 = 65_536;
