//! The way that the typed calls go, and what an answer is by either.

use crate::error::Error;
use crate::refusal::Refusal;

#[cfg(all(target_arch = "x86_64", not(feature = "piped")))]
pub use crate::linked as calls;
#[cfg(not(all(target_arch = "x86_64", not(feature = "piped"))))]
pub use crate::pipe as calls;

pub trait Answer {
    /// What succeeded.
    fn value(self) -> Result<u32, Error>;
}

/// The library's own word.
impl Answer for u64 {
    fn value(self) -> Result<u32, Error> {
        let (number, low) = ((self >> 32) as u32, self as u32);
        match number {
            0 => Ok(low),
            _ => Err(Error::Refused(Refusal { number, place: low })),
        }
    }
}

/// The word that came over the pipe, or why none came.
impl Answer for Result<u64, String> {
    fn value(self) -> Result<u32, Error> {
        self.map_err(Error::Unreached)?.value()
    }
}
