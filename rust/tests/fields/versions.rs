//! A job in either version.

use crate::with_number;

/// A job of version 1, as it is or in version 2 with every letter none.
pub struct Versioned {
    pub bytes: Vec<u8>,
    /// The places of version 1 at which a letter was put in.
    letters: Vec<usize>,
    /// How many bytes a certificate and a run's own part have.
    pub certificate: usize,
    pub run: usize,
}

impl Versioned {
    /// Where that place of version 1 is in this version.
    pub fn place(&self, place: usize) -> usize {
        let before = self.letters.iter().filter(|&&letter| letter <= place);
        place + before.count()
    }
}

fn in_version_1(job: &[u8]) -> Versioned {
    Versioned {
        bytes: job.to_vec(),
        letters: vec![],
        certificate: 16,
        run: 64,
    }
}

pub fn in_version_2(job: &[u8]) -> Versioned {
    let letters = behind_serials(job);
    let mut bytes = with_number(job, 3, 2);
    for &place in letters.iter().rev() {
        bytes.insert(place, 0);
    }
    Versioned {
        bytes,
        letters,
        certificate: 17,
        run: 67,
    }
}

pub fn in_either_version(job: &[u8]) -> [Versioned; 2] {
    [in_version_1(job), in_version_2(job)]
}

/// The places behind the serials of a job of version 1.
fn behind_serials(job: &[u8]) -> Vec<usize> {
    let count = |place: usize| usize::from(job[place]);
    let (certificates, mut run) = (count(5), 9 + 16 * count(5));
    let mut places: Vec<_> = (0..certificates).map(|k| 9 + 16 * k + 8).collect();
    for _ in 0..count(7) {
        places.extend([11, 18, 25].map(|at| run + at));
        run += 64 + 12 * count(run + 60) + 4 * count(run + 61) + 14 * count(run + 62);
    }
    places
}
