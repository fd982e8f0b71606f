//! The findings of one job explained, by a figure or without one.

mod asking;

use independent::figure::Figure;
use independent::job::Job;
use independent::{work, Refusal};
use leverbonnet::pipe::{Call, Files};

use self::asking::{no_such_runs, Asking, OfRun};
use crate::agreement::{agreed_as_expected, Difference, TOGETHER};
use crate::call::{Asked, Calls, Outcome, BY_FIGURE, ROOMY_EXPLANATION, WITHOUT_FIGURE};
use crate::case::Expected;
use crate::explanation::Explanation;
use crate::proved::Proved;
use crate::tally::{Explaining, Tally};

/// Compares both calls that explain a finding. Answers the number of the refusal, the
/// figure's before the job's, or 0 if what is given is read.
pub fn explained(
    proved: &Proved,
    figure: Option<&[u8]>,
    job: &[u8],
    tally: &mut Tally,
) -> Result<u32, Difference> {
    tally.jobs += 1;
    let files = Files {
        figure: figure.unwrap_or(&[]),
        job,
    };
    let calls = match figure {
        None => WITHOUT_FIGURE,
        Some(_) => BY_FIGURE,
    };
    match (figure.map(Figure::read).transpose(), independent::read(job)) {
        (Ok(figure), Ok(job)) => {
            let on_job = OnJob {
                proved,
                files,
                calls,
                figure: figure.as_ref(),
                job: &job,
            };
            on_job.compared(tally)?;
            Ok(0)
        }
        (Err(refusal), job) => unread(proved, files, calls, job.ok(), refusal, tally),
        (_, Err(refusal)) => unread(proved, files, calls, None, refusal, tally),
    }
}

/// Whatever is asked for, and however long the output is, the refusal is the same.
fn unread(
    proved: &Proved,
    files: Files,
    calls: Calls,
    job: Option<Job>,
    refusal: Refusal,
    tally: &mut Tally,
) -> Result<u32, Difference> {
    let number = refusal.number();
    let run = job.map_or(7, |job| job.runs[0].number);
    let asked = [
        Asked {
            run,
            rule: 11,
            place: 1,
        },
        Asked {
            run: 0,
            rule: 0,
            place: 0,
        },
    ];
    let made: Vec<(Call, Expected)> = asked
        .into_iter()
        .flat_map(|asked| [0, ROOMY_EXPLANATION].map(|out_len| (asked, out_len)))
        .flat_map(|(asked, out_len)| {
            [calls.explain, calls.explain_text].map(|call| call(asked, out_len))
        })
        .map(|call| (call, Expected::Refused(number)))
        .collect();
    for outcome in agreed_as_expected(proved, &made, files)? {
        tally.count(&outcome);
    }
    Ok(number)
}

/// A job that is read, and the figure too where there is one.
struct OnJob<'a> {
    proved: &'a Proved,
    files: Files<'a>,
    calls: Calls,
    figure: Option<&'a Figure>,
    job: &'a Job,
}

impl OnJob<'_> {
    fn compared(&self, tally: &mut Tally) -> Result<(), Difference> {
        let runs = self.job.runs.iter();
        let of_runs: Vec<OfRun> = runs
            .map(|run| OfRun {
                run,
                findings: work(self.figure, self.job, run).findings,
            })
            .collect();
        let with_room: Vec<Asking> = of_runs.iter().flat_map(OfRun::with_room).collect();
        let outcomes = self.made(&with_room, tally)?;
        let needs = outcomes.iter().map(|outcome| outcome.value() as usize);
        let mut others: Vec<Asking> = with_room
            .iter()
            .zip(needs)
            .filter(|(asking, _)| asking.is_tried_about_need())
            .flat_map(|(asking, needed)| asking.about_need(needed))
            .collect();
        others.extend(of_runs.iter().flat_map(OfRun::not_had));
        others.extend(no_such_runs(&self.job.runs));
        self.made(&others, tally)?;
        Ok(())
    }

    fn made(&self, all: &[Asking], tally: &mut Tally) -> Result<Vec<Outcome>, Difference> {
        let mut made = Vec::with_capacity(all.len());
        for some in all.chunks(TOGETHER) {
            let calls: Vec<(Call, Expected)> = some
                .iter()
                .map(|asking| (asking.call(self.calls), asking.expected))
                .collect();
            let outcomes = agreed_as_expected(self.proved, &calls, self.files)?;
            for (asking, outcome) in some.iter().zip(&outcomes) {
                self.counted(asking, outcome, tally)?;
            }
            made.extend(outcomes);
        }
        Ok(made)
    }

    /// Also reads an explanation as a reviewer would, whatever both sides agree on.
    fn counted(
        &self,
        asking: &Asking,
        outcome: &Outcome,
        tally: &mut Tally,
    ) -> Result<(), Difference> {
        let is_bytes = outcome.refusal() == 0 && !asking.as_text;
        let explanation = is_bytes.then(|| Explanation::read(outcome.output(0)));
        if let Some(trouble) = explanation.as_ref().and_then(Explanation::trouble) {
            let what = format!("{:?}: {trouble}", asking.call(self.calls));
            return Err(Difference::of_sides(what, &outcome.to_string(), "the same"));
        }
        tally.count_explaining(
            &Explaining {
                job: self.job,
                figure: self.figure,
                run: asking.of_run.map(|of_run| of_run.run),
                findings: asking.of_run.map_or(&[][..], |of_run| &of_run.findings),
                asked: asking.asked,
                as_text: asking.as_text,
                out_len: asking.out_len,
                explanation,
            },
            outcome,
        );
        Ok(())
    }
}

#[cfg(test)]
mod tests {
    use independent::job::Version;
    use independent::{explain, explain_by_figure, explain_text, read};

    use super::*;
    use crate::agreement::INDEPENDENT;
    use crate::call::{Explain, ExplainByFigure, Side};
    use crate::case::ToExplain;
    use crate::cases;
    use crate::extent::LIGHT;

    /// Whether the independent program and another side part on some of the fewest jobs.
    fn part(side: Side) -> bool {
        let other = Proved::Linked(side);
        let mut cases = Version::ALL
            .into_iter()
            .flat_map(|version| cases::explained::cases(version, &LIGHT.explained));
        cases.any(|ToExplain { figure, case }| {
            let job = case.subject.bytes();
            explained(&other, figure.as_deref(), &job, &mut Tally::default()).is_err()
        })
    }

    fn part_in_bytes(explain: Explain) -> bool {
        part(Side {
            explain,
            ..INDEPENDENT
        })
    }

    #[test]
    fn a_side_that_passes_over_the_figure_parts() {
        let without: ExplainByFigure =
            |_, job, run, rule, place, out| explain(job, run, rule, place, out);
        assert!(part(Side {
            explain_by_figure: without,
            ..INDEPENDENT
        }));
        let without: ExplainByFigure =
            |_, job, run, rule, place, out| explain_text(job, run, rule, place, out);
        assert!(part(Side {
            explain_text_by_figure: without,
            ..INDEPENDENT
        }));
    }

    #[test]
    fn a_side_that_reads_the_job_first_parts() {
        let job_first: ExplainByFigure = |figure, job, run, rule, place, out| match read(job) {
            Ok(_) => explain_by_figure(figure, job, run, rule, place, out),
            Err(_) => explain(job, run, rule, place, out),
        };
        assert!(part(Side {
            explain_by_figure: job_first,
            ..INDEPENDENT
        }));
    }

    #[test]
    fn a_side_that_takes_a_byte_of_the_rule_or_the_place_parts() {
        assert!(part_in_bytes(|job, run, rule, place, out| explain(
            job,
            run,
            rule % 256,
            place,
            out
        )));
        assert!(part_in_bytes(|job, run, rule, place, out| explain(
            job,
            run,
            rule,
            place % 256,
            out
        )));
    }

    #[test]
    fn a_side_that_looks_at_the_output_first_parts() {
        assert!(part_in_bytes(|job, run, rule, place, out| {
            let answer = explain(job, run, rule, place, out);
            match (answer >> 32, out.len()) {
                (15, 0) => 9 << 32,
                _ => answer,
            }
        }));
    }

    #[test]
    fn a_side_that_looks_for_the_finding_first_parts() {
        assert!(part_in_bytes(|job, run, rule, place, out| {
            let answer = explain(job, run, rule, place, out);
            match answer >> 32 {
                10 => 15 << 32,
                _ => answer,
            }
        }));
    }

    /// The answer of the call with what it wrote altered.
    fn altered(
        (job, asked, out): (&[u8], Asked, &mut [u8]),
        alter: fn(&[u8], Asked, &mut [u8]),
    ) -> u64 {
        let answer = explain(job, asked.run, asked.rule, asked.place, out);
        if answer >> 32 == 0 {
            alter(job, asked, out);
        }
        answer
    }

    /// A side that alters what it writes.
    macro_rules! altering {
        ($alter:expr) => {
            part_in_bytes(|job, run, rule, place, out| {
                altered((job, Asked { run, rule, place }, out), $alter)
            })
        };
    }

    #[test]
    fn a_side_that_writes_past_the_explanation_parts() {
        let past = altering!(|_, _, out| {
            let last = out.last_mut().expect("it was written");
            *last = 0;
        });
        assert!(past);
    }

    #[test]
    fn a_side_that_leaves_out_the_remainder_parts() {
        let without = altering!(|_, asked, out| if matches!(asked.rule, 15 | 16) {
            out[20..28].fill(0);
        });
        assert!(without);
    }

    #[test]
    fn a_side_that_numbers_the_conditions_it_shows_parts() {
        let numbered = altering!(|_, _, out| if out[0] == 1 {
            out[2] = 1;
        });
        assert!(numbered);
    }

    #[test]
    fn a_side_that_tells_an_absent_day_from_day_0_by_the_day_alone_parts() {
        let by_day = altering!(|_, _, out| if out[..2] == [0, 2] {
            for day in out[2..12].chunks_mut(5) {
                day[2] = u8::from(day[3..] != [0, 0]);
            }
        });
        assert!(by_day);
    }

    /// The after certificate's day of rules 14 to 16, which version 2 does not tell.
    #[test]
    fn a_side_that_explains_version_2_as_version_1_parts() {
        let as_version_1: Explain = |job, run, rule, place, out| {
            let mut job = job.to_vec();
            if let (Ok(mut read), 14..=16) = (read(&job), rule) {
                read.version = Version::One;
                job = read.bytes();
            }
            explain(&job, run, rule, place, out)
        };
        assert!(part_in_bytes(as_version_1));
    }
}
