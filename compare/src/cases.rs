//! The cases, one file for each kind.

pub mod damaged;
pub mod explained;
pub mod figures;
pub mod heads;
pub mod large;
pub mod layouts;
pub mod longest;
pub mod outputs;
pub mod random;
pub mod sheet;
pub mod worked;
