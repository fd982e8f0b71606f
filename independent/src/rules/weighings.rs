//! Rules 17 to 20: what was weighed, and the catch.

use super::{Asking, Broken};
use crate::condition::Condition;
use crate::job::{Run, Weighing, WeighingKind};
use crate::lines::Lines;

/// The widest difference of two final weights that is let pass whatever they
/// weigh, 0.1 mg.
const WIDEST_WEIGHT_DIFFERENCE: i64 = 5;

pub(super) fn ask(asking: &mut Asking<impl FnMut(Broken)>, run: &Run, lines: &Lines) {
    asking.each(17, &run.weighings, steadiness);
    let weighed = |kind: WeighingKind| {
        let of_kind = run.weighings.iter().filter(|one| one.kind == kind);
        of_kind.count() as i64
    };
    asking.whole_run(18, filters(weighed(WeighingKind::Filter)));
    asking.whole_run(19, rinses(weighed(WeighingKind::Rinse)));
    asking.whole_run_if(20, lines.line(19).map(catch));
}

/// A weight is constant within 0.5 mg, or within 1 percent of the net where that
/// is more.
fn steadiness(weighing: &Weighing) -> Condition {
    Condition::above(
        100 * weighing.difference(),
        weighing.net().max(100 * WIDEST_WEIGHT_DIFFERENCE),
        "100 x the difference of the final weights; \
         the larger of 500 and the net weight (0.1 mg)",
    )
}

fn filters(weighed: i64) -> Condition {
    Condition::below(weighed, 1, "filters weighed; the least number of filters")
}

fn rinses(weighed: i64) -> Condition {
    Condition::below(weighed, 1, "rinses weighed; the least number of rinses")
}

fn catch(weight: i64) -> Condition {
    Condition::below(weight, 0, "line 19, the catch; the least catch (0.1 mg)")
}
