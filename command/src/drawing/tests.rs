//! What stands on the pages of many layouts.

mod apart;
mod layouts;
mod overlap;
mod picked;
mod rectangular_places;
mod round_places;
