//! A layout drawn on a page that a crew prints and tapes to the port. Where
//! everything stands is worked out as shapes; only `svg` knows how they are
//! written, so that what stands on a page can be tested as it is.

mod caption;
mod inches;
mod page;
mod rectangular;
mod round;
mod size;
mod spread;
mod svg;
mod text;

#[cfg(test)]
mod tests;

/// The page of a round stack, its points' distances in 0.001 in.
pub fn round(diameter: u16, nozzle: u16, distances: &[u32]) -> String {
    svg::written(&round::page(diameter, nozzle, distances))
}

/// The page of a rectangular stack, its points' distances in 0.001 in: that
/// along the first side and that along the second.
pub fn rectangular(first: u16, second: u16, centers: &[[u32; 2]]) -> String {
    svg::written(&rectangular::page(first, second, centers))
}
