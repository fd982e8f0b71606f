//! Sizes and distances as inches.

/// Of tenths of an inch: `24.0 in`.
pub fn of_tenths(tenths: u16) -> String {
    format!("{}.{} in", tenths / 10, tenths % 10)
}

/// Of thousandths of an inch: `0.250 in`.
pub fn of_thousandths(thousandths: u32) -> String {
    format!("{} in", bare(thousandths))
}

/// Of thousandths of an inch, without the unit: `1.056`.
pub fn bare(thousandths: u32) -> String {
    format!("{}.{:03}", thousandths / 1_000, thousandths % 1_000)
}
