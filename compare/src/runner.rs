//! Runs one section of the comparison, shrinks its first disagreement, and says
//! how much it compared and how long that took.

use std::time::Instant;

use leverbonnet::pipe::{Call, CommandLine, Files};

use crate::agreement::{agreed, agreed_as_expected, Difference, TOGETHER};
use crate::call::only;
use crate::case::{ByFigure, Case, ToExplain};
use crate::cases::outputs::Outputs;
use crate::check;
use crate::proved::Proved;
use crate::report::Failure;
use crate::shrink::smallest;
use crate::tally::Tally;

pub struct Section {
    name: &'static str,
    started: Instant,
    tally: Tally,
}

impl Section {
    pub fn new(name: &'static str) -> Self {
        Section {
            name,
            started: Instant::now(),
            tally: Tally::default(),
        }
    }

    /// Compares the library on every case.
    pub fn library(
        mut self,
        proved: &Proved,
        cases: impl Iterator<Item = Case>,
    ) -> Result<Tally, Failure> {
        for case in cases {
            self.on_case(None, &case, &|job, tally| {
                check::library(proved, job, tally)
            })?;
        }
        Ok(self.done())
    }

    /// Compares the library on every case by its figure.
    pub fn by_figure(
        mut self,
        proved: &Proved,
        cases: impl Iterator<Item = ByFigure>,
    ) -> Result<Tally, Failure> {
        for ByFigure { figure, case } in cases {
            self.on_case(Some(&figure), &case, &|job, tally| {
                let figure = &figure;
                check::by_figure(proved, Files { figure, job }, tally)
            })?;
        }
        Ok(self.done())
    }

    /// Compares how the library explains the findings of every case.
    pub fn explained(
        mut self,
        proved: &Proved,
        cases: impl Iterator<Item = ToExplain>,
    ) -> Result<Tally, Failure> {
        for ToExplain { figure, case } in cases {
            let figure = figure.as_deref();
            self.on_case(figure, &case, &|job, tally| {
                check::explained(proved, figure, job, tally)
            })?;
        }
        Ok(self.done())
    }

    fn on_case(&mut self, figure: Option<&[u8]>, case: &Case, check: Check) -> Result<(), Failure> {
        let compared = |job: &[u8]| check(job, &mut Tally::default()).map(drop);
        let refusal = check(&case.subject.bytes(), &mut self.tally)
            .map_err(|difference| shrunk(figure, case, difference, &compared))?;
        match case.expected.admits(refusal) {
            true => Ok(()),
            false => Err(unexpected(figure, case, refusal)),
        }
    }

    /// Compares what the program prints on every case.
    pub fn sheets(
        self,
        program: &CommandLine,
        cases: impl Iterator<Item = Case>,
    ) -> Result<(), Failure> {
        let compared = |job: &[u8]| check::sheet(program, job);
        let mut jobs = 0;
        for case in cases {
            compared(&case.subject.bytes())
                .map_err(|difference| shrunk(None, &case, difference, &compared))?;
            jobs += 1;
        }
        println!(
            "{}: {jobs} jobs printed alike ({})",
            self.name,
            self.taken()
        );
        Ok(())
    }

    /// Compares the library with outputs of many lengths.
    pub fn outputs(
        mut self,
        proved: &Proved,
        cases: impl Iterator<Item = Outputs>,
    ) -> Result<Tally, Failure> {
        for outputs in cases {
            let job = outputs.case.subject.bytes();
            let lent = outputs.figure.as_deref();
            let figure = lent.unwrap_or(&[]);
            for some in outputs.calls().chunks(TOGETHER) {
                let calls: Vec<Call> = some.iter().map(|&(call, _)| call).collect();
                let compared = |job: &[u8]| agreed(proved, &calls, Files { figure, job }).map(drop);
                let outcomes = agreed_as_expected(proved, some, Files { figure, job: &job })
                    .map_err(|difference| shrunk(lent, &outputs.case, difference, &compared))?;
                for (call, outcome) in calls.iter().zip(outcomes) {
                    match call {
                        Call::SheetText { .. }
                        | Call::SheetTextByFigure { .. }
                        | Call::ExplainText { .. }
                        | Call::ExplainTextByFigure { .. } => self.tally.count_text(&outcome),
                        _ => self.tally.count(&outcome),
                    }
                }
            }
            self.tally.jobs += 1;
        }
        Ok(self.done())
    }

    /// Compares the library's layouts, which take no job.
    pub fn layouts(
        mut self,
        proved: &Proved,
        mut calls: impl Iterator<Item = Call>,
    ) -> Result<Tally, Failure> {
        loop {
            let some: Vec<Call> = calls.by_ref().take(TOGETHER).collect();
            if some.is_empty() {
                return Ok(self.done());
            }
            let outcomes = agreed(proved, &some, only(&[])).map_err(|difference| Failure {
                case: "layouts".into(),
                figure: None,
                job: None,
                difference,
            })?;
            outcomes
                .iter()
                .for_each(|outcome| self.tally.count(outcome));
        }
    }

    fn done(self) -> Tally {
        let Tally {
            jobs, calls, texts, ..
        } = self.tally;
        println!(
            "{}: {jobs} jobs, {calls} calls agree, {texts} of them texts; refusals {} ({})",
            self.name,
            self.tally.refusals_text(),
            self.taken()
        );
        self.tally
    }

    fn taken(&self) -> String {
        format!("{:.1} s", self.started.elapsed().as_secs_f64())
    }
}

/// Answers the number of a refusal, 0 if it is read.
type Check<'a> = &'a dyn Fn(&[u8], &mut Tally) -> Result<u32, Difference>;

type Compared<'a> = &'a dyn Fn(&[u8]) -> Result<(), Difference>;

/// The failure on the smallest job on which the two sides still part. The figure, where
/// one is lent, stays whole.
fn shrunk(
    figure: Option<&[u8]>,
    case: &Case,
    difference: Difference,
    compared: Compared,
) -> Failure {
    let parts = |job: &[u8]| compared(job).is_err();
    let job = smallest(case.subject.clone(), &parts).bytes();
    let difference = compared(&job).err().unwrap_or(difference);
    Failure {
        case: case.name.clone(),
        figure: figure.map(<[u8]>::to_vec),
        job: Some(job),
        difference,
    }
}

/// Both sides agree on the reading, but not on what the case was made for.
fn unexpected(figure: Option<&[u8]>, case: &Case, refusal: u32) -> Failure {
    Failure {
        case: case.name.clone(),
        figure: figure.map(<[u8]>::to_vec),
        job: Some(case.subject.bytes()),
        difference: Difference::unexpected("reading", case.expected, refusal),
    }
}

#[cfg(test)]
mod tests {
    use independent::{read, samples};

    use super::*;
    use crate::agreement::INDEPENDENT;
    use crate::call::{hex, Side};
    use crate::case::Expected;

    /// Both runs of the sample part, and one of them alone does too.
    #[test]
    fn a_failure_by_a_figure_shows_it_whole_and_the_smallest_job() {
        let passing_over = Side {
            sheet_text_by_figure: |_, job, out| independent::sheet_text(job, out),
            ..INDEPENDENT
        };
        let figure = samples::made_up().bytes();
        let case = ByFigure::of_job(
            "a case".into(),
            figure.clone(),
            samples::fewer_points(),
            Expected::Read,
        );
        let compared =
            Section::new("a section").by_figure(&Proved::Linked(passing_over), [case].into_iter());
        let failure = compared.err().expect("the two sides part");
        let job = failure.job.as_ref().expect("one is shown");
        let job = read(job).expect("it is still read");
        assert_eq!((job.runs.len(), job.certificates.len()), (1, 0));
        let told = failure.to_string();
        let shown = format!("figure, {} bytes:\n  {}\n", figure.len(), hex(&figure));
        assert!(told.contains(&shown), "{told}");
    }
}
