//! Every rule asked about a run, in turn. Each is decided once: the findings list those
//! that are broken, and an explanation shows what one of them compares.

mod instruments;
mod sampling;
mod stack;
mod weighings;

use crate::certificates::Chosen;
use crate::condition::Condition;
use crate::figure::Figure;
use crate::job::{Certificate, Run};
use crate::lines::Lines;

/// The place of a finding that is about the whole run.
const WHOLE_RUN: u16 = 0;

/// A rule that is broken by the run, or by the point, segment or weighing at a place.
pub struct Broken {
    pub rule: u8,
    pub place: u16,
    grounds: Grounds,
}

/// What a rule goes by.
enum Grounds {
    /// Whether a certificate is missing.
    Missing(bool),
    /// None where there is nothing to compare, and the rule is kept.
    One(Option<Condition>),
    /// Either of them breaks the rule.
    Two([Condition; 2]),
}

impl Grounds {
    #[inline]
    fn are_broken(&self) -> bool {
        match self {
            Grounds::Missing(missing) => *missing,
            Grounds::One(condition) => condition.map_or(false, |one| one.is_broken()),
            Grounds::Two([first, second]) => first.is_broken() || second.is_broken(),
        }
    }
}

impl Broken {
    /// The conditions that are broken, each with which of the rule's it is.
    pub fn conditions(&self) -> Vec<(u8, Condition)> {
        let all = match &self.grounds {
            Grounds::Missing(_) => vec![],
            Grounds::One(condition) => condition.iter().copied().collect(),
            Grounds::Two(conditions) => conditions.to_vec(),
        };
        let numbered = (1..).zip(all);
        numbered.filter(|(_, one)| one.is_broken()).collect()
    }
}

/// Asks each rule once, in turn; one about points, segments or weighings goes through
/// them in file order. So what is broken comes in the order of the list.
pub fn each_broken(
    run: &Run,
    figure: Option<&Figure>,
    chosen: &Chosen,
    lines: &Lines,
    found: impl FnMut(Broken),
) {
    let mut asking = Asking { found };
    instruments::ask(&mut asking, chosen);
    stack::ask(&mut asking, run, figure);
    sampling::ask(&mut asking, run, lines);
    weighings::ask(&mut asking, run, lines);
}

struct Asking<Found> {
    found: Found,
}

impl<Found: FnMut(Broken)> Asking<Found> {
    /// Most rules are kept, and of those nothing is made but the comparison.
    #[inline]
    fn put(&mut self, rule: u8, place: u16, grounds: Grounds) {
        if grounds.are_broken() {
            (self.found)(Broken {
                rule,
                place,
                grounds,
            });
        }
    }

    #[inline]
    fn certificate(&mut self, rule: u8, certificate: Option<&Certificate>) {
        self.put(rule, WHOLE_RUN, Grounds::Missing(certificate.is_none()));
    }

    #[inline]
    fn whole_run(&mut self, rule: u8, condition: Condition) {
        self.put(rule, WHOLE_RUN, Grounds::One(Some(condition)));
    }

    /// A rule that is kept where what it compares is not there.
    #[inline]
    fn whole_run_if(&mut self, rule: u8, condition: Option<Condition>) {
        self.put(rule, WHOLE_RUN, Grounds::One(condition));
    }

    #[inline]
    fn either(&mut self, rule: u8, conditions: [Condition; 2]) {
        self.put(rule, WHOLE_RUN, Grounds::Two(conditions));
    }

    #[inline]
    fn each<T>(&mut self, rule: u8, records: &[T], condition: impl Fn(&T) -> Condition) {
        for (record, place) in records.iter().zip(1..) {
            self.put(rule, place, Grounds::One(Some(condition(record))));
        }
    }
}
