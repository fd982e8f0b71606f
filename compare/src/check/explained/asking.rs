//! What is asked of a job whose findings are explained: each of them, with room and into
//! outputs about the need, what the run does not have, and runs that are not there.

use std::iter;

use independent::job::Run;
use independent::Finding;
use leverbonnet::pipe::Call;

use crate::call::{Asked, Calls, ROOMY_EXPLANATION, ROOMY_EXPLANATION_TEXT};
use crate::case::Expected;
use crate::check::absent;
use crate::explanation::places;

fn roomy(as_text: bool) -> usize {
    match as_text {
        true => ROOMY_EXPLANATION_TEXT,
        false => ROOMY_EXPLANATION,
    }
}

/// A call to be made, and what is to come of it.
#[derive(Clone, Copy)]
pub struct Asking<'a> {
    /// None for a run that the job does not have.
    pub of_run: Option<&'a OfRun<'a>>,
    pub asked: Asked,
    pub as_text: bool,
    pub out_len: usize,
    pub expected: Expected,
}

/// A run and what it is found to break.
pub struct OfRun<'a> {
    pub run: &'a Run,
    pub findings: Vec<Finding>,
}

impl Asking<'_> {
    pub fn call(&self, calls: Calls) -> Call {
        match self.as_text {
            true => (calls.explain_text)(self.asked, self.out_len),
            false => (calls.explain)(self.asked, self.out_len),
        }
    }

    /// Some of a run's, not always the same.
    pub fn is_tried_about_need(&self) -> bool {
        self.asked.rule % 6 == self.asked.run % 6
    }

    /// Just long enough, a byte too short, and empty.
    pub fn about_need(&self, needed: usize) -> [Self; 3] {
        let lent = |out_len, expected| Asking {
            out_len,
            expected,
            ..*self
        };
        [
            lent(needed, Expected::Read),
            lent(needed - 1, Expected::Refused(9)),
            lent(0, Expected::Refused(9)),
        ]
    }
}

impl OfRun<'_> {
    fn finding(&self, rule: u16, place: u16) -> Asked {
        Asked {
            run: self.run.number,
            rule,
            place,
        }
    }

    /// Every finding, with room to spare.
    pub fn with_room(&self) -> Vec<Asking<'_>> {
        let findings = self.findings.iter();
        findings
            .flat_map(|finding| {
                [false, true].map(|as_text| Asking {
                    of_run: Some(self),
                    asked: self.finding(finding.rule.into(), finding.place),
                    as_text,
                    out_len: roomy(as_text),
                    expected: Expected::Read,
                })
            })
            .collect()
    }

    /// Findings that the run does not have: rule 9, which a figure may make kept, and of
    /// those beside its own one in three, not the same ones for the next run. By turns as
    /// bytes and as text, with room and without.
    pub fn not_had(&self) -> Vec<Asking<'_>> {
        let beside = self.beside_findings().into_iter();
        let some = beside.skip(usize::from(self.run.number % 3)).step_by(3);
        let asked = iter::once(self.finding(9, 0)).chain(some);
        let by_turns = [
            (false, roomy(false)),
            (true, 0),
            (true, roomy(true)),
            (false, 0),
        ];
        asked
            .filter(|&asked| !self.has(asked))
            .zip(by_turns.into_iter().cycle())
            .map(|(asked, (as_text, out_len))| Asking {
                of_run: Some(self),
                asked,
                as_text,
                out_len,
                expected: Expected::Refused(15),
            })
            .collect()
    }

    fn has(&self, Asked { rule, place, .. }: Asked) -> bool {
        let mut findings = self.findings.iter();
        findings.any(|finding| (u16::from(finding.rule), finding.place) == (rule, place))
    }

    /// Rules that there are not, some rules at a place or two, and beside the first and
    /// the last finding those that could be taken for it.
    fn beside_findings(&self) -> Vec<Asked> {
        let mut asked: Vec<Asked> = [0, 13, 21, 255, u16::MAX]
            .map(|rule| self.finding(rule, 0))
            .into();
        let kept = (1..=20).filter(|rule| rule % 5 == self.run.number % 5);
        asked.extend(kept.flat_map(|rule| [0, 1].map(|place| self.finding(rule, place))));
        let ends = [self.findings.first(), self.findings.last()];
        for finding in ends.into_iter().flatten() {
            let (rule, place) = (u16::from(finding.rule), finding.place);
            let other_rules = [256 + rule, u16::MAX - 255 + rule];
            asked.extend(other_rules.map(|rule| self.finding(rule, place)));
            let other_places = [0, 1, place + 1, 256 + place, u16::MAX];
            asked.extend(other_places.map(|place| self.finding(rule, place)));
        }
        for (rule, places) in (1..=20).filter_map(|rule| Some((rule, places(self.run, rule)?))) {
            asked.extend([0, places + 1].map(|place| self.finding(rule, place)));
        }
        asked
    }
}

/// Runs that the job does not have, whatever else is asked for.
pub fn no_such_runs<'a>(runs: &[Run]) -> Vec<Asking<'a>> {
    let numbers = [0, absent(runs), u16::MAX].into_iter();
    let lent = [(true, 0), (false, roomy(false))];
    let asked = numbers.flat_map(|run| lent.map(|(as_text, out_len)| (run, as_text, out_len)));
    asked
        .map(|(run, as_text, out_len)| Asking {
            of_run: None,
            asked: Asked {
                run,
                rule: 11,
                place: 1,
            },
            as_text,
            out_len,
            expected: Expected::Refused(10),
        })
        .collect()
}
