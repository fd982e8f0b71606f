//! Jobs in either version of the file.

use independent::job::{Job, Run, Version, NO_LETTER};
use independent::{samples, Chosen};

/// What an instrument of a sample has in version 2, by its serial: so each keeps its
/// own certificates. The worked job's meter and nozzle have an A, its pitot a Z.
const LETTERS: [u8; 3] = [NO_LETTER, b'Z', b'A'];

/// A sample of version 1 in that version, with letters where that has them.
pub fn in_version(version: Version, sample: Job) -> Job {
    let mut job = Job { version, ..sample };
    if version.has_letters() {
        for instrument in job.instruments_mut() {
            instrument.letter = LETTERS[instrument.serial as usize % LETTERS.len()];
        }
    }
    job
}

/// The sample of a rebuilt meter, which version 1 has no letter for.
pub fn rebuilt_meter(version: Version) -> Job {
    match version {
        Version::One => samples::rebuilt_meter_no_letter(),
        Version::Two => samples::rebuilt_meter(),
    }
}

/// The sample of factors that moved, without letters: in either version the other's twin.
pub fn moved_factor(version: Version) -> Job {
    match version {
        Version::One => samples::moved_factor(),
        Version::Two => samples::moved_factor_version_2(),
    }
}

/// The longest sample of that version.
pub fn longest(version: Version) -> Job {
    match version {
        Version::One => samples::longest(),
        Version::Two => samples::longest_version_2(),
    }
}

pub fn other(version: Version) -> Version {
    match version {
        Version::One => Version::Two,
        Version::Two => Version::One,
    }
}

/// The same job in the other version, if it has no letter.
pub fn twin(job: &Job) -> Option<Job> {
    let mut twin = Job {
        version: other(job.version),
        ..job.clone()
    };
    let lettered = twin.instruments_mut().any(|one| one.letter != NO_LETTER);
    (!lettered).then_some(twin)
}

/// How a run stands to the same run of its job's twin.
#[derive(Clone, Copy, Debug, PartialEq, Eq)]
pub enum InTwin {
    /// The job has a letter, and no twin.
    NoTwin,
    /// Both must come to the same.
    Same,
    /// Its factor moved, on which the versions differ by rule.
    LeftOut,
}

pub fn in_twin(job: &Job, run: &Run) -> InTwin {
    match twin(job) {
        None => InTwin::NoTwin,
        Some(_) if factor_moved(job, run) => InTwin::LeftOut,
        Some(_) => InTwin::Same,
    }
}

/// Whether the factor of the run's meter moved by more than 5 percent.
pub fn factor_moved(job: &Job, run: &Run) -> bool {
    Chosen::for_run(run, &job.certificates).factor_moved()
}

#[cfg(test)]
mod tests {
    use independent::sheet;

    use super::*;

    /// The sheet of each run alone.
    fn sheets(job: &Job) -> Vec<Vec<u8>> {
        let runs = job.runs.iter();
        let alone = runs.map(|run| Job {
            runs: vec![run.clone()],
            ..job.clone()
        });
        alone.map(|job| sheet(&job.bytes())).collect()
    }

    /// The numbers of a sample's runs whose sheets are not the same in version 2.
    fn changed(sample: &Job) -> Vec<u16> {
        let in_version_2 = in_version(Version::Two, sample.clone());
        let both = sheets(sample).into_iter().zip(sheets(&in_version_2));
        let runs = sample.runs.iter().zip(both);
        runs.filter(|(_, (in_1, in_2))| in_1 != in_2)
            .map(|(run, _)| run.number)
            .collect()
    }

    #[test]
    fn letters_change_no_sheet() {
        for sample in [samples::worked(), samples::several_runs()] {
            let lettered = in_version(Version::Two, sample.clone());
            let without = twin(&sample).expect("it has no letter");
            assert_eq!(sheet(&lettered.bytes()), sheet(&without.bytes()));
            assert_eq!(in_version(Version::One, sample.clone()), sample);
        }
    }

    /// Runs 2 and 3 have the meter that came back with 9,700 for 10,300.
    #[test]
    fn the_version_changes_the_sheets_of_moved_factors_alone() {
        assert_eq!(changed(&samples::worked()), []);
        assert_eq!(changed(&samples::several_runs()), [2, 3]);
        assert_eq!(changed(&samples::moved_factor()), [8, 9]);
    }

    #[test]
    fn a_run_is_left_out_where_both_factors_are_found_and_moved() {
        let runs = |job: &Job| -> Vec<InTwin> {
            let runs = job.runs.iter();
            runs.map(|run| in_twin(job, run)).collect()
        };
        let expected = [InTwin::Same, InTwin::LeftOut, InTwin::LeftOut];
        for version in Version::ALL {
            assert_eq!(runs(&moved_factor(version)), expected);

            let mut no_after = moved_factor(version);
            no_after.certificates.retain(|one| one.day <= 9_000);
            assert_eq!(runs(&no_after), [InTwin::Same; 3]);

            let mut no_before = moved_factor(version);
            no_before.certificates.retain(|one| one.day > 9_000);
            assert_eq!(runs(&no_before), [InTwin::Same; 3]);
        }
        let lettered = in_version(Version::Two, samples::moved_factor());
        assert_eq!(runs(&lettered), [InTwin::NoTwin; 3]);
    }

    #[test]
    fn a_job_with_a_letter_has_no_twin() {
        let mut job = samples::rebuilt_meter();
        assert_eq!(twin(&job), None);
        for instrument in job.instruments_mut() {
            instrument.letter = NO_LETTER;
        }
        assert_eq!(twin(&job), Some(samples::rebuilt_meter_no_letter()));
        assert_eq!(twin(&samples::rebuilt_meter_no_letter()), Some(job));
    }
}
