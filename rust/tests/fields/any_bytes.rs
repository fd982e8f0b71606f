//! Any bytes and any refusal: something is said of them.

use leverbonnet::{texts, Refusal};

use crate::versions::in_either_version;
use crate::{SEVERAL_RUNS, WORKED};

/// Numbers that look random and are the same in every test.
pub struct Numbers(pub u64);

impl Numbers {
    pub fn next(&mut self) -> u64 {
        self.0 ^= self.0 << 13;
        self.0 ^= self.0 >> 7;
        self.0 ^= self.0 << 17;
        self.0
    }

    pub fn below(&mut self, bound: usize) -> usize {
        (self.next() % bound as u64) as usize
    }

    /// A place that is none of the file's, or one that may be.
    pub fn place(&mut self, file: &[u8]) -> u32 {
        match self.below(8) {
            0 => self.next() as u32,
            1 => u32::MAX,
            2 => file.len() as u32,
            _ => self.below(file.len() + 2) as u32,
        }
    }

    /// A refusal that fits no job, or one that may.
    fn refusal(&mut self, job: &[u8]) -> Refusal {
        Refusal {
            number: self.below(16) as u32,
            place: self.place(job),
        }
    }
}

fn assert_says_something(refusal: Refusal, job: &[u8]) {
    let clause = refusal.in_job(job);
    assert!(!clause.is_empty() && !clause.contains('\n'), "{clause}");
}

#[test]
fn any_bytes_and_any_refusal_get_a_clause() {
    let mut numbers = Numbers(0x5EED);
    for _ in 0..20_000 {
        let length = numbers.below(400);
        let mut job: Vec<u8> = (0..length).map(|_| numbers.next() as u8).collect();
        // A version and small counts lead further in.
        if length > 8 {
            job[3] = 1 + numbers.below(2) as u8;
            for high_byte in [4, 6, 8] {
                job[high_byte] = 0;
            }
        }
        let refusal = numbers.refusal(&job);
        assert_says_something(refusal, &job);
    }
}

#[test]
fn damaged_jobs_and_any_refusal_get_a_clause() {
    let mut numbers = Numbers(0xB0B);
    let jobs: Vec<_> = [WORKED, SEVERAL_RUNS]
        .into_iter()
        .flat_map(in_either_version)
        .collect();
    for _ in 0..20_000 {
        let mut job = jobs[numbers.below(jobs.len())].bytes.clone();
        for _ in 0..numbers.below(6) {
            let place = numbers.below(job.len());
            job[place] = numbers.next() as u8;
        }
        job.truncate(1 + numbers.below(2 * job.len()));
        let refusal = numbers.refusal(&job);
        assert_says_something(refusal, &job);
    }
}

#[test]
fn the_longest_counts_end_with_the_file() {
    for (version, runs) in [(1, 1_048_569), (2, 1_114_104)] {
        let mut job = b"SRJ\x01\0\xff\xff\xff\xff".to_vec();
        job.resize(2_000_000, 255);
        job[3] = version;
        for number in texts::REFUSALS.iter().map(|refusal| refusal.number) {
            for place in [0, 9, runs, 1_999_999, 2_000_000] {
                assert_says_something(Refusal { number, place }, &job);
            }
        }
    }
}
