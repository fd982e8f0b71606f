//! What figures come to: which step a distance takes, what rule 9 becomes by it, and
//! which field a figure is refused for.

use std::ops::RangeInclusive;

use independent::figure::{Figure, Step, HEADER_LENGTH, MARK, STEP_LENGTH};
use independent::job::{Run, Shape};
use independent::{is_allowed, is_undisturbed, least_points};

use crate::site::diameter;

#[derive(Clone, Copy, Debug, PartialEq, Eq)]
pub enum Disturbance {
    Last,
    Next,
}

/// A run that was worked by a figure.
pub struct RunByFigure<'a> {
    pub figure: &'a Figure,
    pub run: &'a Run,
    pub breaks_rule_9: bool,
}

/// Whether a run is such a one. Where the site is undisturbed the figure does not count.
impl RunByFigure<'_> {
    fn counts(&self) -> bool {
        !is_undisturbed(self.run)
    }

    fn counts_for(&self, shape: Shape) -> bool {
        self.counts() && self.run.shape == shape
    }

    /// That distance asks for more points than the other one.
    pub fn decides(&self, disturbance: Disturbance) -> bool {
        let [last, next] = self.asked();
        self.counts()
            && match disturbance {
                Disturbance::Last => last > next,
                Disturbance::Next => next > last,
            }
    }

    pub fn both_decide(&self) -> bool {
        let [last, next] = self.asked();
        self.counts() && last == next
    }

    fn asked(&self) -> [u8; 2] {
        let taken = self.figure.taken(self.run);
        taken.map(|step| step.points(self.run.shape))
    }

    /// The number asked for is not allowed for that shape, and the next one serves.
    pub fn raised(&self, shape: Shape) -> bool {
        self.counts_for(shape) && self.least() > u16::from(self.figure.asked(self.run))
    }

    pub fn not_raised(&self, shape: Shape) -> bool {
        self.counts_for(shape) && self.least() == u16::from(self.figure.asked(self.run))
    }

    fn least(&self) -> u16 {
        least_points(self.run, Some(self.figure))
    }

    /// It has so many points, and keeps rule 9 by a figure with that least number.
    pub fn kept_with(&self, points: usize, shape: Shape, least: u16) -> bool {
        self.is_with(points, shape, least) && !self.breaks_rule_9
    }

    pub fn broken_with(&self, points: usize, shape: Shape, least: u16) -> bool {
        self.is_with(points, shape, least) && self.breaks_rule_9
    }

    fn is_with(&self, points: usize, shape: Shape, least: u16) -> bool {
        self.counts_for(shape) && self.run.points.len() == points && self.least() == least
    }

    /// The figure makes of rule 9 what the house rule does not.
    pub fn broken_by_figure(&self) -> bool {
        self.breaks_rule_9 && self.suffices(least_points(self.run, None))
    }

    pub fn kept_by_figure(&self) -> bool {
        !self.breaks_rule_9 && !self.suffices(least_points(self.run, None))
    }

    /// The site is undisturbed, and the figure would make something else of rule 9.
    pub fn kept_undisturbed(&self) -> bool {
        !self.counts() && !self.breaks_rule_9 && !self.suffices_where_counted()
    }

    pub fn broken_undisturbed(&self) -> bool {
        !self.counts() && self.breaks_rule_9 && self.suffices_where_counted()
    }

    fn suffices_where_counted(&self) -> bool {
        self.suffices(u16::from(self.figure.asked(self.run)))
    }

    fn suffices(&self, least: u16) -> bool {
        let points = self.run.points.len() as u16;
        is_allowed(self.run.shape, points) && points >= least
    }

    /// Both lists have so many steps.
    pub fn has_steps(&self, count: usize) -> bool {
        let Figure { from_last, to_next } = self.figure;
        self.counts() && [from_last.len(), to_next.len()] == [count; 2]
    }

    /// The distance reaches no step.
    pub fn reaches_none(&self, disturbance: Disturbance) -> bool {
        let (steps, distance) = self.list(disturbance);
        self.counts() && self.excess(distance, steps[0]) < 0
    }

    fn list(&self, disturbance: Disturbance) -> (&[Step], u16) {
        match disturbance {
            Disturbance::Last => (&self.figure.from_last, self.run.from_last_disturbance),
            Disturbance::Next => (&self.figure.to_next, self.run.to_next_disturbance),
        }
    }

    /// The distance is that of a step.
    pub fn reaches_exactly(&self, disturbance: Disturbance, shape: Shape) -> bool {
        self.has_excess(disturbance, shape, |excess, _| excess == 0)
    }

    /// The distance is above that of a step, and would not be with 0.1 in less.
    pub fn reaches_closely(&self, disturbance: Disturbance, shape: Shape) -> bool {
        self.has_excess(disturbance, shape, |excess, tenth| {
            (1..tenth).contains(&excess)
        })
    }

    /// The distance is below that of a step, and would not be with 0.1 in more.
    pub fn misses_closely(&self, disturbance: Disturbance, shape: Shape) -> bool {
        self.has_excess(disturbance, shape, |excess, tenth| {
            (-tenth..0).contains(&excess)
        })
    }

    /// Its excess over some step is such, beside what 0.1 in comes to.
    fn has_excess(
        &self,
        disturbance: Disturbance,
        shape: Shape,
        such: fn(i64, i64) -> bool,
    ) -> bool {
        let (steps, distance) = self.list(disturbance);
        let (_, denominator) = diameter(self.run);
        let mut excesses = steps.iter().map(|&step| self.excess(distance, step));
        self.counts_for(shape) && excesses.any(|excess| such(excess, 100 * denominator))
    }

    /// How far the distance is above that of the step, in parts that hang on the stack.
    fn excess(&self, distance: u16, step: Step) -> i64 {
        let (numerator, denominator) = diameter(self.run);
        100 * i64::from(distance) * denominator - i64::from(step.least_distance) * numerator
    }
}

/// A figure that was refused.
pub struct RefusedFigure<'a> {
    pub figure: &'a [u8],
    pub place: usize,
    /// Whether the job beside it would have been refused too.
    pub job_refused: bool,
}

/// What can be in trouble.
#[derive(Debug, PartialEq, Eq)]
pub enum Field {
    Mark,
    Version,
    Count(Disturbance),
    Distance(Disturbance),
    Round,
    Rectangular,
    LeftOver,
}

const VERSION: usize = MARK.len();
const LAST_COUNT: usize = HEADER_LENGTH;

impl RefusedFigure<'_> {
    pub fn is_for(&self, field: Field) -> bool {
        self.is_complete() && self.field() == Some(field)
    }

    /// For points of that shape that are such a number.
    pub fn is_for_points(&self, shape: Shape, points: RangeInclusive<u8>) -> bool {
        let field = match shape {
            Shape::Round => Field::Round,
            Shape::Rectangular => Field::Rectangular,
        };
        self.is_for(field) && points.contains(&self.figure[self.place])
    }

    /// The file ends where a field begins.
    pub fn ends_before_a_field(&self) -> bool {
        !self.is_complete() && self.field().is_some()
    }

    pub fn ends_within_a_field(&self) -> bool {
        !self.is_complete() && self.field().is_none()
    }

    fn is_complete(&self) -> bool {
        self.place < self.figure.len()
    }

    /// That begins at the place; none where the place is within one.
    fn field(&self) -> Option<Field> {
        match self.place {
            0 => return Some(Field::Mark),
            VERSION => return Some(Field::Version),
            LAST_COUNT => return Some(Field::Count(Disturbance::Last)),
            place if place < LAST_COUNT => return None,
            _ => {}
        }
        let next_count = self.behind_steps(LAST_COUNT);
        if self.place < next_count {
            return self.field_of_step(LAST_COUNT, Disturbance::Last);
        }
        if self.place == next_count {
            return Some(Field::Count(Disturbance::Next));
        }
        match self.place < self.behind_steps(next_count) {
            true => self.field_of_step(next_count, Disturbance::Next),
            false => Some(Field::LeftOver),
        }
    }

    /// Where the steps end whose count stands there.
    fn behind_steps(&self, count: usize) -> usize {
        count + 1 + STEP_LENGTH * usize::from(self.figure[count])
    }

    fn field_of_step(&self, count: usize, disturbance: Disturbance) -> Option<Field> {
        match (self.place - count - 1) % STEP_LENGTH {
            0 => Some(Field::Distance(disturbance)),
            2 => Some(Field::Round),
            3 => Some(Field::Rectangular),
            _ => None,
        }
    }
}

#[cfg(test)]
mod tests {
    use independent::job::Job;
    use independent::samples;
    use leverbonnet::pipe::Files;

    use super::*;
    use crate::agreement::INDEPENDENT;
    use crate::call::{Fill, Trial, BY_FIGURE, FINDING_LENGTH, LINES_LENGTH};
    use crate::tally::Tally;

    /// What the runs of a job come to by the sample.
    fn reached_by_sample(job: &Job) -> Vec<(&'static str, u64)> {
        let figure = samples::made_up();
        let mut tally = Tally::default();
        for run in &job.runs {
            let call = (BY_FIGURE.reduce)(run.number, LINES_LENGTH, 3 * FINDING_LENGTH);
            let files = Files {
                figure: &figure.bytes(),
                job: &job.bytes(),
            };
            let fill = Fill::Pattern;
            let outcome = Trial { call, fill }.made(&INDEPENDENT, files);
            tally.count_reduced_by_figure(&figure, run, &outcome);
        }
        tally.reached()
    }

    /// 16 points of 16 round by the last disturbance; 20 of 18 rectangular by the next.
    /// Then 24 of 36 round by the next, and 25 of 42 rectangular by the last.
    #[test]
    fn steps_are_told_apart_by_disturbance_and_shape() {
        let steps = [
            ("more points by the last disturbance than by the next", 1),
            ("more points by the next disturbance than by the last", 1),
            ("a figure's round points not raised", 1),
        ];
        let raised = ("a figure's rectangular points raised", 1);
        let not_raised = ("a figure's rectangular points not raised", 1);
        let kept = ("rule 9 kept by a figure, where the house rule breaks it", 2);
        let broken = (
            "rule 9 broken by a figure, where the house rule keeps it",
            2,
        );
        assert_eq!(
            reached_by_sample(&samples::fewer_points()),
            [&steps[..], &[raised, kept]].concat()
        );
        assert_eq!(
            reached_by_sample(&samples::more_points()),
            [&steps[..], &[not_raised, broken]].concat()
        );
    }

    /// The worked job's site is undisturbed, and its 8 points are fewer than 12. With 0.1
    /// in less to the next disturbance the figure counts.
    #[test]
    fn an_undisturbed_site_is_told_from_one_that_is_not() {
        let mut job = samples::worked();
        assert_eq!(
            reached_by_sample(&job),
            [(
                "rule 9 kept at an undisturbed site, where the figure would break it",
                1
            )]
        );
        job.runs[0].to_next_disturbance -= 1;
        assert_eq!(
            reached_by_sample(&job),
            [
                ("more points by the last disturbance than by the next", 1),
                ("a figure's round points not raised", 1),
            ]
        );
    }

    /// Both steps of 500 and 100 just reached, less than 0.1 in past, and just missed.
    #[test]
    fn a_step_that_is_just_reached_is_told_from_one_that_is_not() {
        let about = |sides: [u16; 2], next: u16, last: u16| {
            let mut job = samples::fewer_points();
            job.runs.truncate(1);
            let run = &mut job.runs[0];
            run.sides = sides;
            run.to_next_disturbance = next;
            run.from_last_disturbance = last;
            let mut edges = reached_by_sample(&job);
            edges.retain(|(edge, _)| edge.contains(" a step, "));
            edges
        };
        let both = |last, next| [(last, 1), (next, 1)];
        assert_eq!(
            about([240, 0], 240, 1_200),
            both(
                "the last disturbance just at a step, round",
                "the next disturbance just at a step, round"
            )
        );
        assert_eq!(
            about([240, 0], 239, 1_199),
            both(
                "the last disturbance up to 0.1 in short of a step, round",
                "the next disturbance up to 0.1 in short of a step, round"
            )
        );
        assert_eq!(about([240, 0], 241, 1_201), []);
        assert_eq!(about([240, 0], 238, 1_198), []);
        // Three diameters are 72.3 in, and one and a half 36.15.
        assert_eq!(
            about([241, 0], 362, 723),
            both(
                "the last disturbance just at a step, round",
                "the next disturbance less than 0.1 in past a step, round"
            )
        );
    }

    /// The edges that a figure comes to which is refused there, beside a job that is read.
    fn refused_at(figure: &[u8], place: u32) -> Vec<&'static str> {
        let refusal = Figure::read(figure).expect_err("it is refused");
        assert_eq!((refusal.number(), refusal.place), (14, place));
        let mut tally = Tally::default();
        tally.count_refused_figure(figure, place, false);
        let mut edges = tally.reached();
        edges.retain(|&(edge, _)| edge != "a figure refused beside a job that is read");
        edges.into_iter().map(|(edge, _)| edge).collect()
    }

    #[test]
    fn refused_figures_are_told_apart_by_field() {
        let figure = samples::made_up().bytes();
        for (place, value, edge) in [
            (0, 0, "a figure refused at its mark"),
            (3, 2, "a figure refused at its version"),
            (
                5,
                0,
                "a figure refused at the number of steps from the last disturbance",
            ),
            (
                22,
                17,
                "a figure refused at the number of steps to the next disturbance",
            ),
            (
                10,
                0,
                "a figure refused at a distance from the last disturbance",
            ),
            (
                31,
                0,
                "a figure refused at a distance to the next disturbance",
            ),
            (8, 0, "a figure refused at 0 round points"),
            (12, 41, "a figure refused at round points that rise"),
            (25, 49, "a figure refused at 49 round points"),
            (33, 50, "a figure refused at 50 round points or more"),
            (34, 0, "a figure refused at 0 rectangular points"),
            (13, 43, "a figure refused at rectangular points that rise"),
            (26, 50, "a figure refused at 50 rectangular points"),
            (9, 51, "a figure refused at 51 rectangular points or more"),
        ] {
            let mut figure = figure.clone();
            figure[place] = value;
            if place == 10 || place == 31 {
                figure[place + 1] = 0;
            }
            assert_eq!(refused_at(&figure, place as u32), [edge]);
        }
        let left_over = [&figure[..], &[0]].concat();
        assert_eq!(
            refused_at(&left_over, 35),
            ["a figure refused at what is left over"]
        );
    }

    #[test]
    fn ends_of_a_figure_are_told_apart_by_field() {
        let figure = samples::made_up().bytes();
        let (within, before): (Vec<usize>, Vec<usize>) = (0..figure.len()).partition(|&length| {
            let edges = refused_at(&figure[..length], length as u32);
            edges == ["a figure refused at its end, within a field"]
        });
        // Within the mark, the version and each step's distance.
        assert_eq!(within, [1, 2, 4, 7, 11, 15, 19, 24, 28, 32]);
        for length in before {
            let edges = refused_at(&figure[..length], length as u32);
            assert_eq!(edges, ["a figure refused at its end, before a field"]);
        }
    }

    #[test]
    fn what_figures_must_reach_is_told() {
        let unreached = Tally::default().unreached_by_figures();
        assert!(unreached.contains(&"refusal 14".into()));
        assert!(unreached.contains(&"a figure refused at its mark".into()));
        assert!(unreached.contains(&"16 steps in each list".into()));
    }
}
