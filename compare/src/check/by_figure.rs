//! Everything that is compared on one job by a figure.

use independent::figure::Figure;
use independent::job::{Job, Run};
use independent::sheet_by_figure;
use leverbonnet::pipe::{Call, Files};

use super::{absent, roomy, texts, unread};
use crate::agreement::{agreed, agreed_as_expected, Difference};
use crate::call::{BY_FIGURE, FINDING_LENGTH, LINES_LENGTH};
use crate::proved::Proved;
use crate::tally::Tally;

/// Compares both calls that take a figure, and one that does not. Answers the number of the refusal, the
/// figure's before the job's, or 0 if both are read.
pub fn by_figure(proved: &Proved, files: Files, tally: &mut Tally) -> Result<u32, Difference> {
    tally.jobs += 1;
    let figure = Figure::read(files.figure);
    let job = independent::read(files.job);
    let refused = figure.as_ref().err().or(job.as_ref().err());
    let refusal = refused.map_or(0, |refusal| refusal.number());
    let mut others = match (&figure, &job) {
        (Ok(figure), Ok(job)) => reduced(proved, files, figure, job, tally)?,
        (Ok(_), Err(_)) => vec![],
        (Err(refusal), job) => {
            let job_refused = job.is_err();
            tally.count_refused_figure(files.figure, refusal.place, job_refused);
            let first = job.as_ref().map_or(&[][..], |job| &job.runs[..1]);
            roomy(BY_FIGURE, first)
        }
    };
    let runs: Vec<Run> = job.map_or(vec![], |job| job.runs);
    others.push(unread(BY_FIGURE, absent(&runs)));
    // It takes no figure, and is not to look at one that is sent beside the job.
    others.push(Call::RunCount);
    for outcome in agreed(proved, &others, files)? {
        tally.count(&outcome);
    }
    let needed = sheet_by_figure(files.figure, files.job).len();
    let texts = texts(BY_FIGURE, refusal, needed);
    for outcome in agreed_as_expected(proved, &texts, files)? {
        tally.count_text(&outcome);
    }
    Ok(refusal)
}

/// Compares the runs of a job that is read, with room to spare. Answers the calls on
/// them with the shortest outputs that serve.
fn reduced(
    proved: &Proved,
    files: Files,
    figure: &Figure,
    job: &Job,
    tally: &mut Tally,
) -> Result<Vec<Call>, Difference> {
    let reduced = agreed(proved, &roomy(BY_FIGURE, &job.runs), files)?;
    let mut others = Vec::new();
    for (run, reduced) in job.runs.iter().zip(&reduced) {
        tally.count_reduced_by_figure(figure, run, reduced);
        let findings_len = FINDING_LENGTH * reduced.findings();
        others.push((BY_FIGURE.reduce)(run.number, LINES_LENGTH, findings_len));
    }
    Ok(others)
}

#[cfg(test)]
mod tests {
    use independent::figure::Step;
    use independent::job::{Shape, Version};
    use independent::{is_undisturbed, read, work, ACCEPTED};

    use super::*;
    use crate::agreement::INDEPENDENT;
    use crate::call::{ReduceByFigure, Side};
    use crate::case::ByFigure;
    use crate::cases::figures;
    use crate::extent::LIGHT;

    /// How many of the fewest jobs by figures the independent program and another side
    /// part on.
    fn parting(side: Side) -> usize {
        let other = Proved::Linked(side);
        let cases = Version::ALL
            .into_iter()
            .flat_map(|version| figures::cases(version, &LIGHT.figures));
        let parts = |ByFigure { figure, case }: &ByFigure| {
            let job = &case.subject.bytes();
            by_figure(&other, Files { figure, job }, &mut Tally::default()).is_err()
        };
        cases.filter(parts).count()
    }

    fn reducing(reduce_by_figure: ReduceByFigure) -> Side {
        Side {
            reduce_by_figure,
            ..INDEPENDENT
        }
    }

    #[test]
    fn a_side_that_is_the_same_does_not_part() {
        assert_eq!(parting(INDEPENDENT), 0);
    }

    #[test]
    fn a_side_that_passes_over_the_figure_parts() {
        let reduce: ReduceByFigure =
            |_, job, run, lines, findings| independent::reduce(job, run, lines, findings);
        assert!(parting(reducing(reduce)) > 100);
        assert!(
            parting(Side {
                sheet_text_by_figure: |_, job, out| independent::sheet_text(job, out),
                ..INDEPENDENT
            }) > 100
        );
    }

    #[test]
    fn a_side_that_reads_the_job_first_parts() {
        let job_first: ReduceByFigure = |figure, job, run, lines, findings| match read(job) {
            Ok(_) => independent::reduce_by_figure(figure, job, run, lines, findings),
            Err(_) => independent::reduce(job, run, lines, findings),
        };
        assert!(parting(reducing(job_first)) > 0);
    }

    #[test]
    fn a_side_that_looks_for_the_run_first_parts() {
        let run_first: ReduceByFigure = |figure, job, run, lines, findings| {
            let answer = independent::reduce_by_figure(figure, job, run, lines, findings);
            let absent = independent::reduce(job, run, &mut [], &mut []);
            match absent >> 32 {
                10 => absent,
                _ => answer,
            }
        };
        assert!(parting(reducing(run_first)) > 0);
    }

    #[test]
    fn a_side_that_writes_though_it_refuses_the_figure_parts() {
        let writing: ReduceByFigure = |figure, job, run, lines, findings| {
            let answer = independent::reduce_by_figure(figure, job, run, lines, findings);
            if let (14, Some(last)) = (answer >> 32, findings.last_mut()) {
                *last = 0;
            }
            answer
        };
        assert!(parting(reducing(writing)) > 0);
    }

    /// The run as it is worked with the figure altered for it.
    fn altered(
        files: Files,
        number: u16,
        lines: &mut [u8],
        findings: &mut [u8],
        alter: fn(&mut Figure, &Run),
    ) -> u64 {
        let Files { figure, job } = files;
        let answer = independent::reduce_by_figure(figure, job, number, lines, findings);
        if answer >> 32 != 0 {
            return answer;
        }
        let mut figure = Figure::read(figure).expect("it was read");
        let job = read(job).expect("it was read");
        let mut runs = job.runs.iter();
        let run = runs.find(|run| run.number == number).expect("it is there");
        alter(&mut figure, run);
        let worked = work(Some(&figure), &job, run);
        match worked.write(lines, findings) {
            Ok(()) => {
                let accepted = u32::from(worked.accepted()) * ACCEPTED;
                u64::from(worked.findings.len() as u32 + accepted)
            }
            Err(refusal) => u64::from(refusal.number()) << 32,
        }
    }

    /// A side that takes the figure for an altered one.
    macro_rules! altering {
        ($alter:expr) => {
            parting(reducing(|figure, job, run, lines, findings| {
                altered(Files { figure, job }, run, lines, findings, $alter)
            }))
        };
    }

    fn steps(figure: &mut Figure) -> impl Iterator<Item = &mut Step> {
        let Figure { from_last, to_next } = figure;
        from_last.iter_mut().chain(to_next)
    }

    #[test]
    fn a_side_that_takes_one_list_or_shape_for_the_other_parts() {
        let lists = altering!(|figure, _| {
            let Figure { from_last, to_next } = figure;
            std::mem::swap(from_last, to_next);
        });
        assert!(lists > 0);
        let shapes = altering!(|figure, _| for step in steps(figure) {
            std::mem::swap(&mut step.round, &mut step.rectangular);
        });
        assert!(shapes > 0);
    }

    #[test]
    fn a_side_that_takes_a_step_too_early_or_too_late_parts() {
        let late = altering!(|figure, _| for step in steps(figure) {
            step.least_distance = step.least_distance.saturating_add(1);
        });
        assert!(late > 0);
        let early = altering!(|figure, _| for step in steps(figure) {
            step.least_distance = step.least_distance.saturating_sub(1);
        });
        assert!(early > 0);
    }

    /// Puts these steps in place of the lists.
    fn take(figure: &mut Figure, [last, next]: [Step; 2]) {
        figure.from_last = vec![last];
        figure.to_next = vec![next];
    }

    #[test]
    fn a_side_that_rounds_the_diameter_parts() {
        let rounding = altering!(|figure, run| {
            let (numerator, denominator) = crate::site::diameter(run);
            let rounded = (2 * numerator + denominator) / (2 * denominator);
            let taken = figure.taken(&Run {
                shape: Shape::Round,
                sides: [rounded as u16, 0],
                ..run.clone()
            });
            take(figure, taken);
        });
        assert!(rounding > 0);
    }

    #[test]
    fn a_side_that_takes_the_lower_count_parts() {
        let lower = altering!(|figure, run| {
            let taken = figure.taken(run);
            let fewer = taken.iter().min_by_key(|step| step.points(run.shape));
            take(figure, [*fewer.expect("there are two"); 2]);
        });
        assert!(lower > 0);
    }

    #[test]
    fn a_side_that_asks_for_nothing_before_the_first_step_parts() {
        let nothing = altering!(|figure, _| {
            let none = Step {
                least_distance: 0,
                round: 1,
                rectangular: 1,
            };
            figure.from_last.insert(0, none);
            figure.to_next.insert(0, none);
        });
        assert!(nothing > 0);
    }

    #[test]
    fn a_side_that_uses_the_figure_at_an_undisturbed_site_parts() {
        let undisturbed: ReduceByFigure = |figure, job, number, lines, findings| {
            let answer = independent::reduce_by_figure(figure, job, number, lines, findings);
            let would_be_void = |figure: &Figure, run: &Run| {
                is_undisturbed(run) && run.points.len() < usize::from(figure.asked(run))
            };
            let runs = read(job).map_or(vec![], |job| job.runs);
            let run = runs.iter().find(|run| run.number == number);
            match (Figure::read(figure), run) {
                (Ok(figure), Some(run)) if would_be_void(&figure, run) => {
                    answer % u64::from(ACCEPTED)
                }
                _ => answer,
            }
        };
        assert!(parting(reducing(undisturbed)) > 0);
    }
}
