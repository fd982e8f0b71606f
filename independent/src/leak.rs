//! How far a segment's leak lies above what is allowed.

/// The leak in units of 1/(5·T) of 0.001 cfm.
pub fn rate(leak: u16, time: i64) -> i64 {
    5 * time * i64::from(leak)
}

/// The smaller of 0.02 cfm and 4 percent of the metered rate, in the same units.
pub fn allowance(time: i64, volume: i64) -> i64 {
    (100 * time).min(12 * volume)
}

/// The excess of the leak over the allowance; 0 when it is within.
pub fn excess(leak: u16, time: i64, volume: i64) -> i64 {
    (rate(leak, time) - allowance(time, volume)).max(0)
}
