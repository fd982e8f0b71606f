//! Why a run has a finding: the conditions that are broken, with what they compare, and
//! the days of the certificates that were used. As bytes, and as text.

use crate::certificate_days::{self, CertificateDay};
use crate::certificates::{Chosen, Side};
use crate::condition::{Condition, Way};
use crate::figure::Figure;
use crate::findings::Finding;
use crate::job::{Job, Kind, Run};
use crate::lines::Lines;
use crate::print::finding_text;
use crate::rules::each_broken;

/// Of a remainder; where no quotient is compared both are 0.
const REMAINDER_LIMIT: i64 = 0;

pub struct Explanation {
    finding: Finding,
    /// Those that are broken, each with which of the rule's it is.
    conditions: Vec<(u8, Condition)>,
    days: Vec<CertificateDay>,
}

impl Explanation {
    /// None where the run does not break that rule at that place.
    pub fn of(
        figure: Option<&Figure>,
        job: &Job,
        run: &Run,
        rule: u16,
        place: u16,
    ) -> Option<Self> {
        let chosen = Chosen::for_run(run, &job.certificates);
        let lines = Lines::of(job.version, run, &chosen);
        let mut explanation = None;
        each_broken(run, figure, &chosen, &lines, |broken| {
            if (u16::from(broken.rule), broken.place) == (rule, place) {
                explanation = Some(Explanation {
                    finding: Finding::of(job.version, &broken),
                    conditions: broken.conditions(),
                    days: certificate_days::used(job, run, broken.rule),
                });
            }
        });
        explanation
    }

    pub fn bytes(&self) -> Vec<u8> {
        let mut bytes = vec![self.conditions.len() as u8, self.days.len() as u8];
        for (which, condition) in &self.conditions {
            bytes.extend([*which, condition.way as u8]);
            for number in [
                condition.left(),
                condition.right,
                condition.remainder().unwrap_or(0),
                REMAINDER_LIMIT,
            ] {
                bytes.extend(number.to_le_bytes());
            }
        }
        for CertificateDay { kind, side, day } in &self.days {
            bytes.extend([*kind as u8, *side as u8, u8::from(day.is_some())]);
            bytes.extend(day.unwrap_or(0).to_le_bytes());
        }
        bytes
    }

    pub fn text(&self) -> String {
        let mut text = finding_text(self.finding);
        for (_, condition) in &self.conditions {
            text += &condition_text(condition);
        }
        for day in &self.days {
            text += &day_text(day);
        }
        text
    }
}

fn condition_text(condition: &Condition) -> String {
    let (left, right, words) = (condition.left(), condition.right, condition.words);
    let way = match condition.way {
        Way::Below => "BELOW",
        Way::Above => "ABOVE",
        Way::Equal => "EQUAL",
        Way::Differs => "DIFFERS",
    };
    match condition.remainder() {
        None => format!("  COMPARED {left} {way} {right}  {words}\n"),
        Some(remainder) => format!(
            "  COMPARED {left} REMAINDER {remainder} {way} {right} REMAINDER {REMAINDER_LIMIT}  {words}\n"
        ),
    }
}

fn day_text(CertificateDay { kind, side, day }: &CertificateDay) -> String {
    let kind = match kind {
        Kind::Meter => "METER",
        Kind::Pitot => "PITOT",
        Kind::Nozzle => "NOZZLE",
    };
    let side = match side {
        Side::Before => "BEFORE",
        Side::After => "AFTER",
    };
    let day = day.map_or("NONE".into(), |day| day.to_string());
    format!("  CERTIFICATE {kind} {side} {day}\n")
}
