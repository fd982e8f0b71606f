//! What some run or refusal of a comparison must come to: edges of the rules, which
//! hardly any meets by chance, factors that moved, what letters are for, both versions,
//! and what figures are for.

use independent::job::{Job, Run, Shape, Version};

use super::figures::{Disturbance, Field, RefusedFigure, RunByFigure};
use crate::versions::InTwin;

/// A run that was read, and what was written of it.
pub struct Reduced<'a> {
    pub job: &'a Job,
    pub run: &'a Run,
    pub in_twin: InTwin,
    pub accepted: bool,
    pub lines: Vec<Option<i64>>,
    /// Rule and place of each finding.
    pub findings: Vec<(u8, u16)>,
    /// Rule of each finding that is a fault.
    pub faults: Vec<u8>,
}

/// A file that was refused.
pub struct Refused<'a> {
    pub job: &'a [u8],
    pub number: u32,
    pub place: usize,
}

pub struct Edge {
    pub name: &'static str,
    pub times: Times,
}

/// How often a run, or a refusal, comes to it; or whether one by a figure does.
pub enum Times {
    Run(fn(&Reduced) -> usize),
    Refusal(fn(&Refused) -> usize),
    RunByFigure(fn(&RunByFigure) -> bool),
    RefusedFigure(fn(&RefusedFigure) -> bool),
}

const fn edge(name: &'static str, times: fn(&Reduced) -> usize) -> Edge {
    let times = Times::Run(times);
    Edge { name, times }
}

const fn refusal(name: &'static str, times: fn(&Refused) -> usize) -> Edge {
    let times = Times::Refusal(times);
    Edge { name, times }
}

const fn by_figure(name: &'static str, whether: fn(&RunByFigure) -> bool) -> Edge {
    let times = Times::RunByFigure(whether);
    Edge { name, times }
}

const fn refused_figure(name: &'static str, whether: fn(&RefusedFigure) -> bool) -> Edge {
    let times = Times::RefusedFigure(whether);
    Edge { name, times }
}

/// Line 13 where every head is 0.01 in water: a stack that is as slow as that,
/// or slower, is one that the root's fifth place was asked for.
const SLOW_ROOT: i64 = 10_000;

/// The difference of two final weights that is let pass whatever the net is, and
/// once was the greatest that was let pass at all.
const STEADY: i64 = 5;

#[rustfmt::skip]
pub const EDGES: [Edge; 98] = [
    edge("line 6 at its least, 1", |run| run.at(6, 1)),
    edge("a slow stack, line 13 from 1 to 10000", |run| run.slow_stack()),
    edge("line 18 at 8999 and rule 15 broken", |run| run.broken_at(15, 8_999)),
    edge("line 18 at 9000 and rule 15 broken", |run| run.broken_at(15, 9_000)),
    edge("line 18 at 9000 and rule 15 kept", |run| run.kept_at(15, 9_000)),
    edge("line 18 at 11000 and rule 16 kept", |run| run.kept_at(16, 11_000)),
    edge("line 18 at 11000 and rule 16 broken", |run| run.broken_at(16, 11_000)),
    edge("line 18 at 11001 and rule 16 broken", |run| run.broken_at(16, 11_001)),
    edge("weighed 5 apart: kept", |run| {
        run.steady(|difference, _| difference == STEADY)
    }),
    edge("weighed over 5 apart, up to 1 percent of the net: kept", |run| {
        run.steady(|difference, net| difference > STEADY && 100 * difference <= net)
    }),
    edge("weighed over 5 apart, just 1 percent of the net: kept", |run| {
        run.steady(|difference, net| difference > STEADY && 100 * difference == net)
    }),
    edge("weighed over 5 apart, by less than a unit over 1 percent of the net: broken", |run| {
        run.unsteady(|difference, net| difference > STEADY && (1..100).contains(&(100 * difference - net)))
    }),
    edge("weighed 6 apart, the net from 0 to 500: broken", |run| {
        run.unsteady(|difference, net| difference == STEADY + 1 && (0..=500).contains(&net))
    }),
    edge("weighed 6 apart, the net negative: broken", |run| {
        run.unsteady(|difference, net| difference == STEADY + 1 && net < 0)
    }),
    edge("accepted with a weighing over 5 apart", |run| {
        usize::from(run.accepted && run.steady(|difference, _| difference > STEADY) > 0)
    }),
    edge("a factor up by just 5 percent: not moved", |run| {
        run.unmoved(|before, step| 20 * step == before)
    }),
    edge("a factor down by just 5 percent: not moved", |run| {
        run.unmoved(|before, step| -20 * step == before)
    }),
    edge("a factor up by the least over 5 percent: moved", |run| {
        run.moved(|before, step| (1..=20).contains(&(20 * step - before)))
    }),
    edge("a factor down by the least over 5 percent: moved", |run| {
        run.moved(|before, step| (1..=20).contains(&(-20 * step - before)))
    }),
    edge("a factor moved up in version 1: accepted", |run| run.moved_up(Version::One, run.accepted)),
    edge("a factor moved up in version 1: void", |run| run.moved_up(Version::One, !run.accepted)),
    edge("a factor moved down in version 1: accepted", |run| run.moved_down(Version::One, run.accepted)),
    edge("a factor moved down in version 1: void", |run| run.moved_down(Version::One, !run.accepted)),
    edge("a factor moved down in version 1: Y the after factor, lines unlike those of version 2", |run| run.moved_down(Version::One, run.changed_by_version())),
    edge("a factor moved up in version 2: void by it alone", |run| run.moved_up(Version::Two, run.void_by_factor_alone())),
    edge("a factor moved up in version 2: void by it and another fault", |run| run.moved_up(Version::Two, run.void_by_factor_too())),
    edge("a factor moved down in version 2: void by it alone", |run| run.moved_down(Version::Two, run.void_by_factor_alone())),
    edge("a factor moved down in version 2: void by it and another fault", |run| run.moved_down(Version::Two, run.void_by_factor_too())),
    edge("a factor moved down in version 2: Y the before factor, lines unlike those of version 1", |run| run.moved_down(Version::Two, run.changed_by_version())),
    edge("a nearer certificate passed over for its letter alone: the meter's before", |run| run.passed_over(1)),
    edge("a nearer certificate passed over for its letter alone: the pitot's", |run| run.passed_over(2)),
    edge("a nearer certificate passed over for its letter alone: the nozzle's", |run| run.passed_over(3)),
    edge("a nearer certificate passed over for its letter alone: the meter's after", |run| run.passed_over(4)),
    edge("rule 1 broken, though a certificate with another letter stands", |run| run.broken_for_letter(1)),
    edge("rule 2 broken, though a certificate with another letter stands", |run| run.broken_for_letter(2)),
    edge("rule 3 broken, though a certificate with another letter stands", |run| run.broken_for_letter(3)),
    edge("rule 4 broken, though a certificate with another letter stands", |run| run.broken_for_letter(4)),
    edge("two certificates that differ by the letter alone, one of them chosen", |run| run.told_apart_by_letter()),
    edge("a run of version 1", |run| run.of_version(Version::One)),
    edge("a run of version 2", |run| run.of_version(Version::Two)),
    edge("a run of version 1 that is the same in version 2", |run| run.stands_in_twin(Version::One, InTwin::Same)),
    edge("a run of version 2 that is the same in version 1", |run| run.stands_in_twin(Version::Two, InTwin::Same)),
    edge("a run of version 1 left out of the check against its twin, because its factor moved", |run| run.stands_in_twin(Version::One, InTwin::LeftOut)),
    edge("a run of version 2 left out of the check against its twin, because its factor moved", |run| run.stands_in_twin(Version::Two, InTwin::LeftOut)),
    refusal("a bad letter refused", |refused| refused.for_letter()),
    by_figure("more points by the last disturbance than by the next", |run| run.decides(Disturbance::Last)),
    by_figure("more points by the next disturbance than by the last", |run| run.decides(Disturbance::Next)),
    by_figure("as many points by the last disturbance as by the next", |run| run.both_decide()),
    by_figure("a figure's round points raised", |run| run.raised(Shape::Round)),
    by_figure("a figure's round points not raised", |run| run.not_raised(Shape::Round)),
    by_figure("a figure's rectangular points raised", |run| run.raised(Shape::Rectangular)),
    by_figure("a figure's rectangular points not raised", |run| run.not_raised(Shape::Rectangular)),
    by_figure("the first step, though the last disturbance reaches none", |run| run.reaches_none(Disturbance::Last)),
    by_figure("the first step, though the next disturbance reaches none", |run| run.reaches_none(Disturbance::Next)),
    by_figure("the last disturbance just at a step, round", |run| run.reaches_exactly(Disturbance::Last, Shape::Round)),
    by_figure("the last disturbance just at a step, rectangular", |run| run.reaches_exactly(Disturbance::Last, Shape::Rectangular)),
    by_figure("the next disturbance just at a step, round", |run| run.reaches_exactly(Disturbance::Next, Shape::Round)),
    by_figure("the next disturbance just at a step, rectangular", |run| run.reaches_exactly(Disturbance::Next, Shape::Rectangular)),
    by_figure("the last disturbance less than 0.1 in past a step, round", |run| run.reaches_closely(Disturbance::Last, Shape::Round)),
    by_figure("the last disturbance less than 0.1 in past a step, rectangular", |run| run.reaches_closely(Disturbance::Last, Shape::Rectangular)),
    by_figure("the next disturbance less than 0.1 in past a step, round", |run| run.reaches_closely(Disturbance::Next, Shape::Round)),
    by_figure("the next disturbance less than 0.1 in past a step, rectangular", |run| run.reaches_closely(Disturbance::Next, Shape::Rectangular)),
    by_figure("the last disturbance up to 0.1 in short of a step, round", |run| run.misses_closely(Disturbance::Last, Shape::Round)),
    by_figure("the last disturbance up to 0.1 in short of a step, rectangular", |run| run.misses_closely(Disturbance::Last, Shape::Rectangular)),
    by_figure("the next disturbance up to 0.1 in short of a step, round", |run| run.misses_closely(Disturbance::Next, Shape::Round)),
    by_figure("the next disturbance up to 0.1 in short of a step, rectangular", |run| run.misses_closely(Disturbance::Next, Shape::Rectangular)),
    by_figure("rule 9 broken by a figure, where the house rule keeps it", |run| run.broken_by_figure()),
    by_figure("rule 9 kept by a figure, where the house rule breaks it", |run| run.kept_by_figure()),
    by_figure("rule 9 kept at an undisturbed site, where the figure would break it", |run| run.kept_undisturbed()),
    by_figure("rule 9 broken at an undisturbed site, where the figure would keep it", |run| run.broken_undisturbed()),
    by_figure("at least 4 points, round: kept with 4", |run| run.kept_with(4, Shape::Round, 4)),
    by_figure("at least 48 points, round: broken with 44", |run| run.broken_with(44, Shape::Round, 48)),
    by_figure("at least 48 points, round: kept with 48", |run| run.kept_with(48, Shape::Round, 48)),
    by_figure("at least 9 points, rectangular: kept with 9", |run| run.kept_with(9, Shape::Rectangular, 9)),
    by_figure("at least 49 points, rectangular: broken with 42", |run| run.broken_with(42, Shape::Rectangular, 49)),
    by_figure("at least 49 points, rectangular: broken with 48", |run| run.broken_with(48, Shape::Rectangular, 49)),
    by_figure("at least 49 points, rectangular: kept with 49", |run| run.kept_with(49, Shape::Rectangular, 49)),
    by_figure("1 step in each list", |run| run.has_steps(1)),
    by_figure("16 steps in each list", |run| run.has_steps(16)),
    refused_figure("a figure refused at its mark", |figure| figure.is_for(Field::Mark)),
    refused_figure("a figure refused at its version", |figure| figure.is_for(Field::Version)),
    refused_figure("a figure refused at the number of steps from the last disturbance", |figure| figure.is_for(Field::Count(Disturbance::Last))),
    refused_figure("a figure refused at the number of steps to the next disturbance", |figure| figure.is_for(Field::Count(Disturbance::Next))),
    refused_figure("a figure refused at a distance from the last disturbance", |figure| figure.is_for(Field::Distance(Disturbance::Last))),
    refused_figure("a figure refused at a distance to the next disturbance", |figure| figure.is_for(Field::Distance(Disturbance::Next))),
    refused_figure("a figure refused at 0 round points", |figure| figure.is_for_points(Shape::Round, 0..=0)),
    refused_figure("a figure refused at round points that rise", |figure| figure.is_for_points(Shape::Round, 1..=48)),
    refused_figure("a figure refused at 49 round points", |figure| figure.is_for_points(Shape::Round, 49..=49)),
    refused_figure("a figure refused at 50 round points or more", |figure| figure.is_for_points(Shape::Round, 50..=255)),
    refused_figure("a figure refused at 0 rectangular points", |figure| figure.is_for_points(Shape::Rectangular, 0..=0)),
    refused_figure("a figure refused at rectangular points that rise", |figure| figure.is_for_points(Shape::Rectangular, 1..=49)),
    refused_figure("a figure refused at 50 rectangular points", |figure| figure.is_for_points(Shape::Rectangular, 50..=50)),
    refused_figure("a figure refused at 51 rectangular points or more", |figure| figure.is_for_points(Shape::Rectangular, 51..=255)),
    refused_figure("a figure refused at what is left over", |figure| figure.is_for(Field::LeftOver)),
    refused_figure("a figure refused at its end, before a field", |figure| figure.ends_before_a_field()),
    refused_figure("a figure refused at its end, within a field", |figure| figure.ends_within_a_field()),
    refused_figure("a figure refused beside a job that is read", |figure| !figure.job_refused),
    refused_figure("a figure refused beside a job that is refused", |figure| figure.job_refused),
];

impl Reduced<'_> {
    pub fn line(&self, number: usize) -> Option<i64> {
        self.lines[number - 1]
    }

    pub fn breaks(&self, rule: u8) -> bool {
        self.findings.iter().any(|finding| finding.0 == rule)
    }

    fn at(&self, number: usize, value: i64) -> usize {
        usize::from(self.line(number) == Some(value))
    }

    fn slow_stack(&self) -> usize {
        usize::from(matches!(self.line(13), Some(root) if (1..=SLOW_ROOT).contains(&root)))
    }

    /// Once if line 18 is written so and the rule that judges it unrounded is broken.
    fn broken_at(&self, rule: u8, percent: i64) -> usize {
        usize::from(self.breaks(rule)) * self.at(18, percent)
    }

    fn kept_at(&self, rule: u8, percent: i64) -> usize {
        usize::from(!self.breaks(rule)) * self.at(18, percent)
    }

    /// How many weighings with such a difference and net break rule 17.
    fn unsteady(&self, such: fn(i64, i64) -> bool) -> usize {
        self.weighed(such, true)
    }

    fn steady(&self, such: fn(i64, i64) -> bool) -> usize {
        self.weighed(such, false)
    }

    fn weighed(&self, such: fn(i64, i64) -> bool, broken: bool) -> usize {
        let by_place = (1..).zip(&self.run.weighings);
        by_place
            .filter(|(_, weighing)| such(weighing.difference(), weighing.net()))
            .filter(|&(place, _)| self.findings.contains(&(17, place)) == broken)
            .count()
    }

    pub fn of_version(&self, version: Version) -> usize {
        usize::from(self.job.version == version)
    }

    fn stands_in_twin(&self, version: Version, in_twin: InTwin) -> usize {
        usize::from(self.in_twin == in_twin) * self.of_version(version)
    }
}
