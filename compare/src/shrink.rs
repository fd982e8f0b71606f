//! Makes a failing case small: first fewer changes, then fewer records, then fewer
//! letters, for as long as the two sides still part on it.

use independent::job::{Run, Segment, Version, NO_LETTER};

use crate::case::Subject;

/// Whether the two sides still part on a job.
pub type Parts<'a> = &'a dyn Fn(&[u8]) -> bool;

pub fn smallest(mut subject: Subject, parts: Parts) -> Subject {
    while fewer_changes(&mut subject, parts)
        || fewer_records(&mut subject, parts)
        || fewer_letters(&mut subject, parts)
    {}
    subject
}

/// Keeps the edit if the sides still part; answers whether it was kept.
fn attempt(subject: &mut Subject, parts: Parts, edit: impl Fn(&mut Subject)) -> bool {
    let mut smaller = subject.clone();
    edit(&mut smaller);
    let kept = parts(&smaller.bytes());
    if kept {
        *subject = smaller;
    }
    kept
}

fn fewer_changes(subject: &mut Subject, parts: Parts) -> bool {
    let mut any = false;
    for k in (0..subject.changes.len()).rev() {
        any |= attempt(subject, parts, |s| {
            s.changes.remove(k);
        });
    }
    any
}

fn fewer_records(subject: &mut Subject, parts: Parts) -> bool {
    let mut any = false;
    for r in (0..subject.job.runs.len()).rev() {
        any |= attempt(subject, parts, |s| {
            s.job.runs.remove(r);
        });
    }
    for c in (0..subject.job.certificates.len()).rev() {
        any |= attempt(subject, parts, |s| {
            s.job.certificates.remove(c);
        });
    }
    for r in 0..subject.job.runs.len() {
        any |= fewer_in_run(subject, r, parts);
    }
    any
}

fn fewer_in_run(subject: &mut Subject, r: usize, parts: Parts) -> bool {
    let mut any = false;
    for p in (0..subject.job.runs[r].points.len()).rev() {
        any |= attempt(subject, parts, |s| remove_point(&mut s.job.runs[r], p));
    }
    for k in (0..subject.job.runs[r].segments.len()).rev() {
        any |= attempt(subject, parts, |s| join_segment(&mut s.job.runs[r], k));
    }
    for w in (0..subject.job.runs[r].weighings.len()).rev() {
        any |= attempt(subject, parts, |s| {
            s.job.runs[r].weighings.remove(w);
        });
    }
    any
}

/// Version 1, which has none, or else one letter less.
fn fewer_letters(subject: &mut Subject, parts: Parts) -> bool {
    if !subject.job.version.has_letters() {
        return false;
    }
    if attempt(subject, parts, |s| s.job.version = Version::One) {
        return true;
    }
    let letters = subject.job.instruments_mut().map(|one| one.letter);
    let letters: Vec<u8> = letters.collect();
    let mut lettered = (0..letters.len()).filter(|&k| letters[k] != NO_LETTER);
    lettered.any(|k| {
        attempt(subject, parts, |s| {
            let instrument = s.job.instruments_mut().nth(k);
            instrument.expect("it has a letter").letter = NO_LETTER;
        })
    })
}

/// Takes a point out and its seconds off the last segments, so that the totals
/// that agreed still do.
fn remove_point(run: &mut Run, p: usize) {
    let mut seconds = run.points.remove(p).seconds;
    while let Some(Segment { seconds: last, .. }) = run.segments.last_mut() {
        let taken = seconds.min(*last);
        *last -= taken;
        seconds -= taken;
        if *last > 0 {
            break;
        }
        run.segments.pop();
    }
}

/// Gives a segment's seconds to the one before it, or the first one's to the
/// next; a segment alone goes for good.
fn join_segment(run: &mut Run, k: usize) {
    let seconds = run.segments.remove(k).seconds;
    if let Some(neighbor) = run.segments.get_mut(k.saturating_sub(1)) {
        neighbor.seconds = neighbor.seconds.saturating_add(seconds);
    }
}

#[cfg(test)]
mod tests {
    use independent::{read, samples};

    use super::*;
    use crate::case::Change;

    #[test]
    fn keeps_only_what_the_sides_part_on() {
        let mut job = samples::longest();
        job.runs[3].points[40].velocity_head = 9_999;
        job.runs[3].segments[2].leak = 777;
        let changes = vec![Change::Append(vec![1, 2, 3])];
        let parts = |bytes: &[u8]| {
            let bytes = bytes.strip_suffix(&[1, 2, 3]).unwrap_or(bytes);
            read(bytes).map_or(false, |job| {
                job.runs.iter().any(|run| {
                    run.points.iter().any(|point| point.velocity_head == 9_999)
                        && run.segments.iter().any(|segment| segment.leak == 777)
                })
            })
        };
        let small = smallest(Subject { job, changes }, &parts);
        assert!(small.changes.is_empty() && small.job.certificates.is_empty());
        assert_eq!(small.job.runs.len(), 1, "one run stays");
        let run = &small.job.runs[0];
        let counts = (run.points.len(), run.segments.len(), run.weighings.len());
        assert_eq!(counts, (1, 1, 0));
    }

    #[test]
    fn keeps_only_the_letters_that_the_sides_part_on() {
        let lettered_meter = |bytes: &[u8]| {
            let job = read(bytes);
            job.map_or(false, |job| {
                job.runs.iter().any(|run| run.meter.letter == b'A')
            })
        };
        let subject = Subject {
            job: samples::longest_version_2(),
            changes: vec![],
        };
        let small = smallest(subject.clone(), &lettered_meter).job;
        assert_eq!((small.certificates.len(), small.runs.len()), (0, 1));
        let run = &small.runs[0];
        let letters = [run.meter, run.pitot, run.nozzle].map(|one| one.letter);
        assert_eq!(letters, [b'A', NO_LETTER, NO_LETTER]);

        let any_job = |bytes: &[u8]| read(bytes).is_ok();
        assert_eq!(smallest(subject, &any_job).job.version, Version::One);
    }
}
