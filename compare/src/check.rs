//! Everything that is compared on one job: each call of the library in several
//! ways, its runs with those of its twin in the other version, but for moved factors,
//! or the program's printed sheet; on one job by a figure; and its findings explained.

mod by_figure;
mod explained;

pub use by_figure::by_figure;
pub use explained::explained;

use std::io::{self, Write};
use std::process::Stdio;

use independent::job::{Job, Run, Version};
use leverbonnet::pipe::{Call, CommandLine, Files};

use crate::agreement::{agreed, agreed_as_expected, agreed_on_twin, Difference};
use crate::call::{only, Calls, Outcome, FINDING_LENGTH, LINES_LENGTH, WITHOUT_FIGURE};
use crate::case::Expected;
use crate::proved::Proved;
use crate::tally::Tally;
use crate::versions::{factor_moved, in_twin, twin, InTwin};

/// Room for the lines and findings of any run, and then some.
const ROOMY_LINES: usize = LINES_LENGTH + 11;
const ROOMY_FINDINGS: usize = FINDING_LENGTH * 110;

const TEXT_TO_SPARE: usize = 11;

/// Compares every call on the job, and its runs with those of its twin if it has one.
/// Answers the number of its refusal, 0 if it is read.
pub fn library(proved: &Proved, job: &[u8], tally: &mut Tally) -> Result<u32, Difference> {
    tally.jobs += 1;
    let files = only(job);
    let counted = agreed(proved, &[Call::RunCount], files)?.remove(0);
    tally.count(&counted);
    let read = independent::read(job);
    let mut others = match &read {
        Ok(read) => reduced(proved, files, read, tally)?,
        Err(_) => {
            tally.count_refused(job, &counted);
            vec![]
        }
    };
    let runs = read.map_or(vec![], |job| job.runs);
    let indexes = (0..=runs.len() as u16).chain([u16::MAX]);
    others.extend(indexes.map(|index| Call::RunNumber { index }));
    others.extend([0, absent(&runs), u16::MAX].map(|run| unread(WITHOUT_FIGURE, run)));
    for outcome in agreed(proved, &others, files)? {
        tally.count(&outcome);
    }
    let needed = independent::sheet(job).len();
    let texts = texts(WITHOUT_FIGURE, counted.refusal(), needed);
    for outcome in agreed_as_expected(proved, &texts, files)? {
        tally.count_text(&outcome);
    }
    Ok(counted.refusal())
}

/// Compares the runs of a job that is read, with room to spare. Answers the calls on
/// them with outputs about their need.
fn reduced(
    proved: &Proved,
    files: Files,
    read: &Job,
    tally: &mut Tally,
) -> Result<Vec<Call>, Difference> {
    let roomy = roomy(WITHOUT_FIGURE, &read.runs);
    let reduced = agreed(proved, &roomy, files)?;
    let in_twin = compared_with_twin(proved, read, &roomy, &reduced)?;
    let mut others = Vec::new();
    for ((run, reduced), in_twin) in read.runs.iter().zip(&reduced).zip(in_twin) {
        void_where_moved(read, run, reduced)?;
        tally.count_reduced(read, run, in_twin, reduced);
        let findings_len = FINDING_LENGTH * reduced.findings();
        others.extend(about_need(run.number, findings_len));
    }
    Ok(others)
}

/// Compares the runs with those of the job's twin, if it has one, but for those that
/// are left out. Answers how each stands to its own there.
fn compared_with_twin(
    proved: &Proved,
    job: &Job,
    calls: &[Call],
    on_job: &[Outcome],
) -> Result<Vec<InTwin>, Difference> {
    let runs: Vec<InTwin> = job.runs.iter().map(|run| in_twin(job, run)).collect();
    if let Some(twin) = twin(job) {
        let on_job = calls.iter().copied().zip(on_job).zip(&runs);
        let same: Vec<(Call, &Outcome)> = on_job
            .filter(|&(_, in_twin)| *in_twin == InTwin::Same)
            .map(|(on_job, _)| on_job)
            .collect();
        agreed_on_twin(proved, &same, &twin.bytes())?;
    }
    Ok(runs)
}

/// A run of version 2 whose factor moved is void, whatever both sides agree on.
fn void_where_moved(job: &Job, run: &Run, reduced: &Outcome) -> Result<(), Difference> {
    let moved = job.version == Version::Two && factor_moved(job, run);
    match moved && reduced.accepted() {
        true => Err(Difference::of_sides(
            format!("run {} of version 2, whose factor moved", run.number),
            "accepted",
            "the same",
        )),
        false => Ok(()),
    }
}

/// The runs with room to spare.
fn roomy(calls: Calls, runs: &[Run]) -> Vec<Call> {
    let numbers = runs.iter().map(|run| run.number);
    numbers
        .map(|number| (calls.reduce)(number, ROOMY_LINES, ROOMY_FINDINGS))
        .collect()
}

/// The number of a run that is not there, also where there are none.
fn absent(runs: &[Run]) -> u16 {
    runs.last().map_or(7, |last| last.number + 1)
}

/// A run that is not there, or whose job is not read, with too short an output.
fn unread(calls: Calls, run: u16) -> Call {
    (calls.reduce)(run, 0, ROOMY_FINDINGS)
}

/// The text of that length with room to spare, in an output that just serves, in
/// one a byte too short, and in none. Where it is refused with a number, no length is
/// needed.
fn texts(calls: Calls, refusal: u32, needed: usize) -> Vec<(Call, Expected)> {
    let text = |out_len, expected| ((calls.text)(out_len), expected);
    match refusal {
        0 => vec![
            text(needed + TEXT_TO_SPARE, Expected::Read),
            text(needed, Expected::Read),
            text(needed - 1, Expected::Refused(9)),
            text(0, Expected::Refused(9)),
        ],
        number => vec![
            text(TEXT_TO_SPARE, Expected::Refused(number)),
            text(0, Expected::Refused(number)),
        ],
    }
}

/// The run with the shortest outputs that serve, and with either one byte too
/// short.
fn about_need(run: u16, findings_len: usize) -> Vec<Call> {
    let reduce = |lines_len, findings_len| (WITHOUT_FIGURE.reduce)(run, lines_len, findings_len);
    let mut calls = vec![
        reduce(LINES_LENGTH, findings_len),
        reduce(LINES_LENGTH - 1, findings_len),
    ];
    if findings_len > 0 {
        calls.push(reduce(LINES_LENGTH, findings_len - 1));
    }
    calls
}

/// Compares what the program prints for the job on standard input.
pub fn sheet(program: &CommandLine, job: &[u8]) -> Result<(), Difference> {
    let expected = independent::sheet(job);
    let printed = match printed_by(program, job) {
        Ok(text) if text == expected => return Ok(()),
        Ok(text) => String::from_utf8_lossy(&text).into_owned(),
        Err(trouble) => format!("could not be run: {trouble}"),
    };
    let what = format!("what {program} prints");
    let expected = String::from_utf8_lossy(&expected);
    Err(Difference::of_sides(what, &printed, &expected))
}

/// The rules say nothing of an exit status, so only being killed is an error.
fn printed_by(program: &CommandLine, job: &[u8]) -> io::Result<Vec<u8>> {
    let mut child = program
        .command()
        .stdin(Stdio::piped())
        .stdout(Stdio::piped())
        .spawn()?;
    let mut input = child.stdin.take().expect("standard input is piped");
    let written = input.write_all(job);
    drop(input);
    let output = child.wait_with_output()?;
    match written {
        // A program may stop reading once it has met the first trouble.
        Err(trouble) if trouble.kind() != io::ErrorKind::BrokenPipe => return Err(trouble),
        _ => {}
    }
    match output.status.code() {
        Some(_) => Ok(output.stdout),
        None => Err(io::Error::new(io::ErrorKind::Other, "it was killed")),
    }
}

#[cfg(test)]
mod tests {
    use independent::job::NO_LETTER;
    use independent::{read, samples, work, Class, ACCEPTED};

    use super::*;
    use crate::agreement::INDEPENDENT;
    use crate::call::{Fill, Side, Trial};
    use crate::cases::random;
    use crate::versions::{moved_factor, other};

    type Reduce = fn(&[u8], u16, &mut [u8], &mut [u8]) -> u64;

    /// What is said of a difference from a job's twin.
    const ON_TWIN: &str = "on its twin in the other version";

    /// Where the independent program and one with another `reduce` part on a job.
    fn difference(reduce: Reduce, job: &[u8]) -> Option<String> {
        let other = Side {
            reduce,
            ..INDEPENDENT
        };
        let compared = library(&Proved::Linked(other), job, &mut Tally::default());
        compared.err().map(|difference| difference.what)
    }

    #[test]
    fn a_side_that_is_the_same_does_not_part() {
        for job in [
            samples::worked(),
            samples::rebuilt_meter(),
            samples::moved_factor(),
            samples::moved_factor_version_2(),
        ] {
            assert_eq!(difference(independent::reduce, &job.bytes()), None);
        }
    }

    #[test]
    fn a_side_that_is_off_in_version_2_parts_on_a_twin() {
        let off = |job: &[u8], run: u16, lines: &mut [u8], findings: &mut [u8]| {
            let answer = independent::reduce(job, run, lines, findings);
            if job[3] == 2 && answer >> 32 == 0 {
                lines[1] += 1;
            }
            answer
        };
        let what = difference(off, &samples::worked().bytes()).expect("its twin differs");
        assert!(what.contains(ON_TWIN), "{what}");
    }

    /// On the one run of the sample that is not left out.
    #[test]
    fn a_side_that_is_off_in_version_2_parts_on_a_factor_that_did_not_move() {
        let off = |job: &[u8], run: u16, lines: &mut [u8], findings: &mut [u8]| {
            let answer = independent::reduce(job, run, lines, findings);
            if job[3] == 2 && run == 7 && answer >> 32 == 0 {
                lines[1] += 1;
            }
            answer
        };
        let [in_1, in_2] = on_moved_factors(off);
        let what = in_1.expect("its twin differs");
        assert!(what.contains(ON_TWIN) && what.contains("run: 7,"), "{what}");
        assert!(!in_2.expect("it differs").contains(ON_TWIN));
    }

    /// Where they part on the sample of moved factors in each version.
    fn on_moved_factors(reduce: Reduce) -> [Option<String>; 2] {
        Version::ALL.map(|version| difference(reduce, &moved_factor(version).bytes()))
    }

    /// They part on jobs of that version, and not as twins of the other's.
    fn parts_on_moved_factors_of(version: Version, reduce: Reduce) {
        let [in_1, in_2] = on_moved_factors(reduce);
        let (parting, agreeing) = match version {
            Version::One => (in_1, in_2),
            Version::Two => (in_2, in_1),
        };
        assert!(!parting.expect("the sides part").contains(ON_TWIN));
        assert_eq!(agreeing, None);

        assert!(parting_random_jobs(version, reduce) > 0);
        assert_eq!(parting_random_jobs(other(version), reduce), 0);
    }

    /// How many of the random jobs of that version they part on.
    fn parting_random_jobs(version: Version, reduce: Reduce) -> usize {
        let cases = random::cases(version, 100);
        let jobs = cases.map(|case| case.subject.bytes());
        jobs.filter(|job| difference(reduce, job).is_some()).count()
    }

    #[test]
    fn a_side_that_takes_the_lower_factor_in_version_2_parts() {
        let lower = |job: &[u8], number: u16, lines: &mut [u8], findings: &mut [u8]| {
            let answer = independent::reduce(job, number, lines, findings);
            if answer >> 32 == 0 {
                let mut job = read(job).expect("it was reduced");
                job.version = Version::One;
                let mut runs = job.runs.iter();
                let run = runs.find(|run| run.number == number);
                let worked = work(None, &job, run.expect("it was reduced"));
                let written = worked.write(lines, &mut [0; ROOMY_FINDINGS]);
                written.expect("there is room");
            }
            answer
        };
        parts_on_moved_factors_of(Version::Two, lower);
    }

    /// The independent `reduce`, but for the class of rule 5 in that version.
    fn with_class<const VERSION: u8, const CLASS: u8>(
        job: &[u8],
        run: u16,
        lines: &mut [u8],
        findings: &mut [u8],
    ) -> u64 {
        let answer = independent::reduce(job, run, lines, findings);
        if job[3] == VERSION && answer >> 32 == 0 {
            let count = answer as u32 % ACCEPTED;
            let findings = findings.chunks_mut(FINDING_LENGTH).take(count as usize);
            for finding in findings.filter(|finding| finding[0] == 5) {
                finding[1] = CLASS;
            }
        }
        answer
    }

    #[test]
    fn a_side_that_gives_a_note_in_version_2_parts() {
        let note = with_class::<2, { Class::Note as u8 }>;
        parts_on_moved_factors_of(Version::Two, note);
    }

    #[test]
    fn a_side_that_gives_a_fault_in_version_1_parts() {
        let fault = with_class::<1, { Class::Fault as u8 }>;
        parts_on_moved_factors_of(Version::One, fault);
    }

    /// The runs of the sample of moved factors that would not do if they were accepted.
    fn to_be_void(version: Version) -> Vec<u16> {
        let accepting = Side {
            reduce: |_, _, _, _| u64::from(ACCEPTED),
            ..INDEPENDENT
        };
        let job = moved_factor(version);
        let runs = job.runs.iter().filter(|run| {
            let call = (WITHOUT_FIGURE.reduce)(run.number, ROOMY_LINES, ROOMY_FINDINGS);
            let fill = Fill::Pattern;
            let accepted = Trial { call, fill }.made(&accepting, only(&job.bytes()));
            void_where_moved(&job, run, &accepted).is_err()
        });
        runs.map(|run| run.number).collect()
    }

    #[test]
    fn a_moved_factor_accepted_by_both_sides_will_not_do_in_version_2() {
        assert_eq!(Version::ALL.map(to_be_void), [vec![], vec![8, 9]]);
    }

    /// The job as it would be read by who passes over letters.
    fn without_letters(job: &[u8]) -> Vec<u8> {
        read(job).map_or(job.to_vec(), |mut job| {
            for instrument in job.instruments_mut() {
                instrument.letter = NO_LETTER;
            }
            job.bytes()
        })
    }

    #[test]
    fn a_side_that_passes_over_letters_parts_on_random_jobs() {
        let careless = |job: &[u8], run: u16, lines: &mut [u8], findings: &mut [u8]| {
            independent::reduce(&without_letters(job), run, lines, findings)
        };
        assert_eq!(parting_random_jobs(Version::One, careless), 0);
        assert!(parting_random_jobs(Version::Two, careless) > 50);
    }
}
