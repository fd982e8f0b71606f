//! What the calls that explain findings come to: each rule by each call, the conditions
//! and days that are told, outputs about the need, and what the run does not have.

use std::ops::RangeBounds;

use independent::figure::Figure;
use independent::job::{Instrument, Job, Kind, Run, Shape, Version};
use independent::{is_undisturbed, least_points, Chosen, Finding};

use super::{add_each, Tally, LAST_RULE, RULES};
use crate::call::{Asked, Outcome};
use crate::explanation::{places, Condition, Explanation};

/// A call on a job that is read.
pub struct Explaining<'a> {
    pub job: &'a Job,
    pub figure: Option<&'a Figure>,
    /// None where the job does not have it.
    pub run: Option<&'a Run>,
    /// What the run breaks.
    pub findings: &'a [Finding],
    pub asked: Asked,
    pub as_text: bool,
    pub out_len: usize,
    /// Where one was written as bytes.
    pub explanation: Option<Explanation>,
}

/// What was counted of them.
pub struct Counts {
    /// By version, by figure, as text, and then by rule.
    rules: [[[[u64; LAST_RULE + 1]; 2]; 2]; 2],
    edges: [u64; EDGES.len()],
}

impl Default for Counts {
    fn default() -> Self {
        Counts {
            rules: Default::default(),
            edges: [0; EDGES.len()],
        }
    }
}

impl Counts {
    pub fn add(&mut self, other: &Counts) {
        add_each(&mut self.edges, &other.edges);
        let mine = self.rules.iter_mut().flatten().flatten();
        for (mine, others) in mine.zip(other.rules.iter().flatten().flatten()) {
            add_each(mine, others);
        }
    }

    /// How the calls were made, and how often each rule was explained so.
    fn by_call(&self) -> impl Iterator<Item = (String, &[u64; LAST_RULE + 1])> {
        Version::ALL.into_iter().flat_map(move |version| {
            [false, true].into_iter().flat_map(move |by_figure| {
                [false, true].into_iter().map(move |as_text| {
                    let figure = ["without a figure", "by a figure"][usize::from(by_figure)];
                    let form = ["as bytes", "as text"][usize::from(as_text)];
                    let name = format!("version {}, {figure}, {form}", version as u16);
                    let rules = &self.rules[version as usize - 1];
                    (name, &rules[usize::from(by_figure)][usize::from(as_text)])
                })
            })
        })
    }

    fn edges(&self) -> impl Iterator<Item = (&'static str, u64)> + '_ {
        let edges = EDGES.iter().zip(&self.edges);
        edges.map(|(edge, &count)| (edge.name, count))
    }
}

impl Tally {
    pub fn count_explaining(&mut self, explaining: &Explaining, outcome: &Outcome) {
        match explaining.as_text {
            true => self.count_text(outcome),
            false => self.count(outcome),
        }
        let made = Made {
            explaining,
            refusal: outcome.refusal(),
            needed: outcome.value() as usize,
        };
        if made.refusal == 0 {
            let version = explaining.job.version as usize - 1;
            let by_figure = usize::from(explaining.figure.is_some());
            let as_text = usize::from(explaining.as_text);
            let rule = usize::from(explaining.asked.rule);
            self.explained.rules[version][by_figure][as_text][rule] += 1;
        }
        for (edge, count) in EDGES.iter().zip(&mut self.explained.edges) {
            *count += u64::from((edge.whether)(&made));
        }
    }

    /// What findings explained must reach and these did not, in words.
    pub fn unreached_by_explaining(&self) -> Vec<String> {
        let mut unreached = self.unreached_refusals((1..=10).chain([14, 15]));
        for (call, rules) in self.explained.by_call() {
            let missing = RULES.iter().filter(|&&rule| rules[rule] == 0);
            unreached.extend(missing.map(|rule| format!("rule {rule} explained in {call}")));
        }
        let edges = self.explained.edges().filter(|&(_, count)| count == 0);
        unreached.extend(edges.map(|(edge, _)| format!("explained: {edge}")));
        unreached
    }

    /// What was reached by findings explained.
    pub fn explained_text(&self) -> String {
        let rules = self.explained.by_call().map(|(call, rules)| {
            let counted = RULES.map(|rule| format!("{rule}: {}", rules[rule]));
            format!("  by rule in {call}: {}", counted.join(", "))
        });
        let edges = super::edges_text(self.explained.edges());
        rules.chain([edges]).collect::<Vec<String>>().join("\n")
    }
}

/// A call and what it came to.
struct Made<'a> {
    explaining: &'a Explaining<'a>,
    /// 0 for success.
    refusal: u32,
    /// What was written, where it succeeded.
    needed: usize,
}

struct Edge {
    name: &'static str,
    whether: fn(&Made) -> bool,
}

const fn edge(name: &'static str, whether: fn(&Made) -> bool) -> Edge {
    Edge { name, whether }
}

#[rustfmt::skip]
const EDGES: [Edge; 86] = [
    edge("rule 1 with a day on the other side", |made| made.tells_missing(1, true)),
    edge("rule 1 with no day on either side", |made| made.tells_missing(1, false)),
    edge("rule 2 with a day on the other side", |made| made.tells_missing(2, true)),
    edge("rule 2 with no day on either side", |made| made.tells_missing(2, false)),
    edge("rule 3 with a day on the other side", |made| made.tells_missing(3, true)),
    edge("rule 3 with no day on either side", |made| made.tells_missing(3, false)),
    edge("rule 4 with a day on the other side", |made| made.tells_missing(4, true)),
    edge("rule 4 with no day on either side", |made| made.tells_missing(4, false)),
    edge("a missing certificate, though one with another letter stands", |made| made.passes_over_letter()),
    edge("a certificate of day 0", |made| made.tells_day_0()),
    edge("rule 5 in version 1", |made| made.tells(5) && made.is_of(Version::One)),
    edge("rule 5 in version 2", |made| made.tells(5) && made.is_of(Version::Two)),
    edge("rule 7, round", |made| made.tells_in(7, Shape::Round)),
    edge("rule 7, rectangular", |made| made.tells_in(7, Shape::Rectangular)),
    edge("rule 8, round, by its first condition alone", |made| made.tells_conditions(8, Shape::Round, &[1])),
    edge("rule 8, round, by its second condition alone", |made| made.tells_conditions(8, Shape::Round, &[2])),
    edge("rule 8, round, by both conditions", |made| made.tells_conditions(8, Shape::Round, &[1, 2])),
    edge("rule 8, rectangular, by its first condition alone", |made| made.tells_conditions(8, Shape::Rectangular, &[1])),
    edge("rule 8, rectangular, by its second condition alone", |made| made.tells_conditions(8, Shape::Rectangular, &[2])),
    edge("rule 8, rectangular, by both conditions", |made| made.tells_conditions(8, Shape::Rectangular, &[1, 2])),
    edge("rule 9, round, by its first condition alone", |made| made.tells_conditions(9, Shape::Round, &[1])),
    edge("rule 9, round, by its second condition alone", |made| made.tells_conditions(9, Shape::Round, &[2])),
    edge("rule 9, round, by both conditions", |made| made.tells_conditions(9, Shape::Round, &[1, 2])),
    edge("rule 9, rectangular, by its first condition alone", |made| made.tells_conditions(9, Shape::Rectangular, &[1])),
    edge("rule 9, rectangular, by its second condition alone", |made| made.tells_conditions(9, Shape::Rectangular, &[2])),
    edge("rule 9, rectangular, by both conditions", |made| made.tells_conditions(9, Shape::Rectangular, &[1, 2])),
    edge("rule 9 against what a figure asks for, round", |made| made.tells_least_of_figure(Shape::Round)),
    edge("rule 9 against what a figure asks for, rectangular", |made| made.tells_least_of_figure(Shape::Rectangular)),
    edge("rule 9 by a figure at an undisturbed site", |made| made.tells_undisturbed_by_figure()),
    edge("rule 9 against 49, though there are more points", |made| made.tells_fewer_than_there_are()),
    edge("rule 14 in version 1, the meter certified after the run", |made| made.tells_after(14, Version::One, true)),
    edge("rule 14 in version 1, the meter not certified after the run", |made| made.tells_after(14, Version::One, false)),
    edge("rule 14 in version 2, the meter certified after the run", |made| made.tells_after(14, Version::Two, true)),
    edge("rule 14 in version 2, the meter not certified after the run", |made| made.tells_after(14, Version::Two, false)),
    edge("rule 15 in version 1, the meter certified after the run", |made| made.tells_after(15, Version::One, true)),
    edge("rule 15 in version 1, the meter not certified after the run", |made| made.tells_after(15, Version::One, false)),
    edge("rule 15 in version 2, the meter certified after the run", |made| made.tells_after(15, Version::Two, true)),
    edge("rule 15 in version 2, the meter not certified after the run", |made| made.tells_after(15, Version::Two, false)),
    edge("rule 16 in version 1, the meter certified after the run", |made| made.tells_after(16, Version::One, true)),
    edge("rule 16 in version 1, the meter not certified after the run", |made| made.tells_after(16, Version::One, false)),
    edge("rule 16 in version 2, the meter certified after the run", |made| made.tells_after(16, Version::Two, true)),
    edge("rule 16 in version 2, the meter not certified after the run", |made| made.tells_after(16, Version::Two, false)),
    edge("rule 15 with a remainder", |made| made.tells_percent(15, |one| one.remainder > 0)),
    edge("rule 15 without a remainder", |made| made.tells_percent(15, |one| one.remainder == 0)),
    edge("rule 15 at 8999 with a remainder", |made| made.tells_percent(15, |one| one.left == 8_999 && one.remainder > 0)),
    edge("rule 16 at its limit with a remainder", |made| made.tells_percent(16, |one| one.left == one.right && one.remainder > 0)),
    edge("rule 16 above its limit with a remainder", |made| made.tells_percent(16, |one| one.left > one.right && one.remainder > 0)),
    edge("rule 16 above its limit without a remainder", |made| made.tells_percent(16, |one| one.left > one.right && one.remainder == 0)),
    edge("rule 17 against 500", |made| made.tells_right(17, |right| right == 500)),
    edge("rule 17 against the net", |made| made.tells_right(17, |right| right > 500)),
    edge("as bytes without a figure into an output that just serves", |made| made.is_by(false, false) && made.just_serves()),
    edge("as bytes without a figure into one a byte longer or more", |made| made.is_by(false, false) && made.serves_with_room()),
    edge("as bytes without a figure refused for an output of some bytes", |made| made.is_by(false, false) && made.is_too_short(1..)),
    edge("as bytes without a figure refused for an empty output", |made| made.is_by(false, false) && made.is_too_short(0..1)),
    edge("as bytes by a figure into an output that just serves", |made| made.is_by(true, false) && made.just_serves()),
    edge("as bytes by a figure into one a byte longer or more", |made| made.is_by(true, false) && made.serves_with_room()),
    edge("as bytes by a figure refused for an output of some bytes", |made| made.is_by(true, false) && made.is_too_short(1..)),
    edge("as bytes by a figure refused for an empty output", |made| made.is_by(true, false) && made.is_too_short(0..1)),
    edge("as text without a figure into an output that just serves", |made| made.is_by(false, true) && made.just_serves()),
    edge("as text without a figure into one a byte longer or more", |made| made.is_by(false, true) && made.serves_with_room()),
    edge("as text without a figure refused for an output of some bytes", |made| made.is_by(false, true) && made.is_too_short(1..)),
    edge("as text without a figure refused for an empty output", |made| made.is_by(false, true) && made.is_too_short(0..1)),
    edge("as text by a figure into an output that just serves", |made| made.is_by(true, true) && made.just_serves()),
    edge("as text by a figure into one a byte longer or more", |made| made.is_by(true, true) && made.serves_with_room()),
    edge("as text by a figure refused for an output of some bytes", |made| made.is_by(true, true) && made.is_too_short(1..)),
    edge("as text by a figure refused for an empty output", |made| made.is_by(true, true) && made.is_too_short(0..1)),
    edge("not had: rule 0", |made| made.is_not_had() && made.asked().rule == 0),
    edge("not had: rule 13", |made| made.is_not_had() && made.asked().rule == 13),
    edge("not had: rule 21", |made| made.is_not_had() && made.asked().rule == 21),
    edge("not had: rule 255", |made| made.is_not_had() && made.asked().rule == 255),
    edge("not had: rule 65535", |made| made.is_not_had() && made.asked().rule == 65_535),
    edge("not had: a rule that is kept", |made| made.is_not_had() && made.is_kept_rule()),
    edge("not had: 256 above a rule that is broken there", |made| made.is_not_had() && made.is_broken_less(256, 0)),
    edge("not had: 256 above a place that breaks the rule", |made| made.is_not_had() && made.is_broken_less(0, 256)),
    edge("not had: place 0 of a rule about points, segments or weighings that is broken", |made| made.is_not_had() && made.is_place_0_of_broken()),
    edge("not had: a place past the last point, segment or weighing", |made| made.is_not_had() && made.is_past_the_last()),
    edge("not had: a place of a rule about the whole run that is broken", |made| made.is_not_had() && made.is_place_of_whole_run()),
    edge("not had: a place between that keeps the rule", |made| made.is_not_had() && made.is_kept_place()),
    edge("not had: place 65535", |made| made.is_not_had() && made.asked().place == 65_535),
    edge("not had: by a figure, though it is had without", |made| made.is_not_had() && made.is_had_without_figure()),
    edge("not had: with too short an output", |made| made.is_not_had() && made.explaining.out_len == 0),
    edge("not had: with room", |made| made.is_not_had() && made.explaining.out_len > 0),
    edge("no such run: 0", |made| made.is_no_run() && made.asked().run == 0),
    edge("no such run: 65535", |made| made.is_no_run() && made.asked().run == 65_535),
    edge("no such run: with too short an output", |made| made.is_no_run() && made.explaining.out_len == 0),
    edge("no such run: with room", |made| made.is_no_run() && made.explaining.out_len > 0),
];

impl Made<'_> {
    fn asked(&self) -> Asked {
        self.explaining.asked
    }

    fn is_of(&self, version: Version) -> bool {
        self.explaining.job.version == version
    }

    /// What is told of that rule.
    fn told(&self, rule: u16) -> Option<&Explanation> {
        let explanation = self.explaining.explanation.as_ref();
        explanation.filter(|_| self.asked().rule == rule)
    }

    fn tells(&self, rule: u16) -> bool {
        self.told(rule).is_some()
    }

    fn shape(&self) -> Option<Shape> {
        self.explaining.run.map(|run| run.shape)
    }

    fn tells_in(&self, rule: u16, shape: Shape) -> bool {
        self.tells(rule) && self.shape() == Some(shape)
    }

    /// A missing certificate, and whether one of the instrument is dated on the other side.
    fn tells_missing(&self, rule: u16, on_other_side: bool) -> bool {
        let days = self.told(rule).map_or(&[][..], |told| &told.days);
        days.len() == 2 && days.iter().any(|one| one.day.is_some()) == on_other_side
    }

    fn passes_over_letter(&self) -> bool {
        let kind = match self.asked().rule {
            1 | 4 => Kind::Meter,
            2 => Kind::Pitot,
            3 => Kind::Nozzle,
            _ => return false,
        };
        let of_run = self.explaining.run.map(|run| run.instrument(kind));
        let is_rival = |other: &Instrument, own: &Instrument| {
            (other.maker, other.serial) == (own.maker, own.serial) && other.letter != own.letter
        };
        let mut others = self.explaining.job.certificates.iter();
        self.explaining.explanation.is_some()
            && of_run.map_or(false, |own| {
                others.any(|one| one.kind == kind && is_rival(&one.instrument, &own))
            })
    }

    fn tells_day_0(&self) -> bool {
        let explanation = self.explaining.explanation.as_ref();
        let mut days = explanation.map_or(&[][..], |told| &told.days).iter();
        days.any(|one| one.day == Some(0))
    }

    fn tells_conditions(&self, rule: u16, shape: Shape, which: &[u8]) -> bool {
        let conditions = self.told(rule).map_or(&[][..], |told| &told.conditions);
        self.shape() == Some(shape)
            && conditions
                .iter()
                .map(|one| one.which)
                .eq(which.iter().copied())
    }

    /// The right number of the first condition of rule 9.
    fn least_told(&self) -> Option<i64> {
        let mut conditions = self.told(9)?.conditions.iter();
        conditions.find(|one| one.which == 1).map(|one| one.right)
    }

    /// The number is the figure's, and no other would do.
    fn tells_least_of_figure(&self, shape: Shape) -> bool {
        let Explaining { figure, run, .. } = *self.explaining;
        match (figure, run, self.least_told()) {
            (Some(figure), Some(run), Some(least)) => {
                let by_house = i64::from(least_points(run, None));
                run.shape == shape
                    && least == i64::from(least_points(run, Some(figure)))
                    && least != by_house
            }
            _ => false,
        }
    }

    fn tells_undisturbed_by_figure(&self) -> bool {
        let Explaining { figure, run, .. } = *self.explaining;
        figure.is_some() && self.tells(9) && run.map_or(false, is_undisturbed)
    }

    fn tells_fewer_than_there_are(&self) -> bool {
        let conditions = self.told(9).map_or(&[][..], |told| &told.conditions);
        let mut second = conditions.iter().filter(|one| one.which == 2);
        second.any(|one| one.right == 49 && one.left > 49)
    }

    /// In a job of that version whose meter has an after certificate, or has none.
    fn tells_after(&self, rule: u16, version: Version, found: bool) -> bool {
        let Explaining { job, run, .. } = *self.explaining;
        let is_found = |run| {
            Chosen::for_run(run, &job.certificates)
                .meter_after
                .is_some()
        };
        self.tells(rule) && self.is_of(version) && run.map(is_found) == Some(found)
    }

    fn tells_percent(&self, rule: u16, such: fn(&Condition) -> bool) -> bool {
        let mut conditions = self
            .told(rule)
            .map_or(&[][..], |told| &told.conditions)
            .iter();
        conditions.any(such)
    }

    fn tells_right(&self, rule: u16, such: fn(i64) -> bool) -> bool {
        let mut conditions = self
            .told(rule)
            .map_or(&[][..], |told| &told.conditions)
            .iter();
        conditions.any(|one| such(one.right))
    }

    fn is_by(&self, figure: bool, as_text: bool) -> bool {
        let Explaining {
            figure: lent,
            as_text: text,
            ..
        } = *self.explaining;
        (lent.is_some(), text) == (figure, as_text)
    }

    fn just_serves(&self) -> bool {
        self.refusal == 0 && self.explaining.out_len == self.needed
    }

    fn serves_with_room(&self) -> bool {
        self.refusal == 0 && self.explaining.out_len > self.needed
    }

    fn is_too_short(&self, lengths: impl RangeBounds<usize>) -> bool {
        self.refusal == 9 && lengths.contains(&self.explaining.out_len)
    }

    fn is_not_had(&self) -> bool {
        self.refusal == 15
    }

    fn breaks(&self, rule: u16, place: u16) -> bool {
        let mut findings = self.explaining.findings.iter();
        findings.any(|one| (u16::from(one.rule), one.place) == (rule, place))
    }

    fn breaks_anywhere(&self, rule: u16) -> bool {
        let mut findings = self.explaining.findings.iter();
        findings.any(|one| u16::from(one.rule) == rule)
    }

    fn is_kept_rule(&self) -> bool {
        let rule = self.asked().rule;
        RULES.contains(&usize::from(rule)) && !self.breaks_anywhere(rule)
    }

    /// It would be had with so much less of a rule and of a place.
    fn is_broken_less(&self, rule: u16, place: u16) -> bool {
        let asked = self.asked();
        let less = (asked.rule.checked_sub(rule), asked.place.checked_sub(place));
        matches!(less, (Some(rule), Some(place)) if self.breaks(rule, place))
    }

    /// Of the rule in the run.
    fn places(&self) -> Option<u16> {
        places(self.explaining.run?, self.asked().rule)
    }

    fn is_place_0_of_broken(&self) -> bool {
        let Asked { rule, place, .. } = self.asked();
        place == 0 && self.places().is_some() && self.breaks_anywhere(rule)
    }

    fn is_past_the_last(&self) -> bool {
        let place = self.asked().place;
        self.places().map_or(false, |places| place == places + 1)
    }

    fn is_place_of_whole_run(&self) -> bool {
        self.asked().place > 0 && self.breaks(self.asked().rule, 0)
    }

    fn is_kept_place(&self) -> bool {
        let Asked { rule, place, .. } = self.asked();
        let places = self.places().unwrap_or(0);
        (1..=places).contains(&place) && self.breaks_anywhere(rule)
    }

    /// By the house rule the run has too few points, and by the figure it has enough.
    fn is_had_without_figure(&self) -> bool {
        let Explaining { figure, run, .. } = *self.explaining;
        let points = run.map_or(0, |run| run.points.len() as u16);
        figure.is_some()
            && self.asked().rule == 9
            && self.asked().place == 0
            && run.map_or(false, |run| points < least_points(run, None))
    }

    fn is_no_run(&self) -> bool {
        self.refusal == 10
    }
}

#[cfg(test)]
mod tests {
    use independent::samples;

    use super::*;
    use crate::agreement::INDEPENDENT;
    use crate::check;
    use crate::proved::Proved;

    /// The edges with names from that on that the job comes to.
    fn reached(figure: Option<&Figure>, job: &Job, names: &str) -> Vec<&'static str> {
        let figure = figure.map(Figure::bytes);
        let proved = Proved::Linked(INDEPENDENT);
        let mut tally = Tally::default();
        let compared = check::explained(&proved, figure.as_deref(), &job.bytes(), &mut tally);
        assert!(matches!(compared, Ok(0)));
        let edges = tally.explained.edges().filter(|&(_, count)| count > 0);
        edges
            .map(|(name, _)| name)
            .filter(|name| name.starts_with(names))
            .collect()
    }

    /// Just below 9,000 and just above 11,000.
    #[test]
    fn percents_are_told_apart_by_quotient_and_remainder() {
        let mut job = samples::percent_limits();
        assert_eq!(
            reached(None, &job, "rule 1"),
            [
                "rule 15 in version 1, the meter certified after the run",
                "rule 16 in version 1, the meter certified after the run",
                "rule 15 with a remainder",
                "rule 15 at 8999 with a remainder",
                "rule 16 at its limit with a remainder",
            ]
        );
        job.certificates.remove(1);
        job.version = Version::Two;
        assert_eq!(
            reached(None, &job, "rule 16"),
            [
                "rule 16 in version 2, the meter not certified after the run",
                "rule 16 at its limit with a remainder",
            ]
        );
    }

    /// The house rule is content with the points of the one sample and not of the other,
    /// and the figure the other way round.
    #[test]
    fn a_least_number_is_told_from_that_of_the_house_rule() {
        let figure = samples::made_up();
        let conditions = [
            "rule 9, round, by its first condition alone",
            "rule 9, rectangular, by its first condition alone",
        ];
        let of_figure = [
            "rule 9 against what a figure asks for, round",
            "rule 9 against what a figure asks for, rectangular",
        ];
        let (more, fewer) = (samples::more_points(), samples::fewer_points());
        assert_eq!(
            reached(Some(&figure), &more, "rule 9"),
            [&conditions[..], &of_figure].concat()
        );
        assert!(reached(None, &more, "rule 9").is_empty());
        assert_eq!(reached(None, &fewer, "rule 9"), conditions);
        assert!(reached(Some(&figure), &fewer, "rule 9").is_empty());
        let kept = "not had: by a figure, though it is had without";
        assert_eq!(reached(Some(&figure), &fewer, kept), [kept]);
        assert!(reached(Some(&figure), &more, kept).is_empty());
    }

    /// The pitot is certified a day too late, and no other instrument at all.
    #[test]
    fn a_day_on_the_other_side_is_told_from_none() {
        let mut job = samples::worked();
        job.certificates = vec![job.certificates[2]];
        job.certificates[0].day = 9_001;
        assert_eq!(
            reached(None, &job, "rule"),
            [
                "rule 1 with no day on either side",
                "rule 2 with a day on the other side",
                "rule 3 with no day on either side",
                "rule 4 with no day on either side",
            ]
        );
    }

    #[test]
    fn nothing_explained_has_reached_nothing() {
        let unreached = Tally::default().unreached_by_explaining();
        assert_eq!(unreached.len(), 12 + 8 * RULES.len() + EDGES.len());
    }
}
