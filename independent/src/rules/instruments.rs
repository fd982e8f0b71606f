//! Rules 1 to 6: the certificates of a run's instruments.

use super::{Asking, Broken};
use crate::certificates::Chosen;
use crate::condition::Condition;

/// The widest spread of a nozzle's diameters, 0.001 in.
const WIDEST_NOZZLE_SPREAD: i64 = 4;

pub(super) fn ask(asking: &mut Asking<impl FnMut(Broken)>, chosen: &Chosen) {
    asking.certificate(1, chosen.meter_before);
    asking.certificate(2, chosen.pitot);
    asking.certificate(3, chosen.nozzle);
    asking.certificate(4, chosen.meter_after);
    asking.whole_run_if(5, chosen.factors_apart());
    asking.whole_run_if(6, chosen.nozzle_diameters().map(spread));
}

fn spread(diameters: [u16; 3]) -> Condition {
    let [a, b, c] = diameters.map(i64::from);
    Condition::above(
        a.max(b).max(c) - a.min(b).min(c),
        WIDEST_NOZZLE_SPREAD,
        "the nozzle's highest less its lowest diameter; the most that they may differ (0.001 in)",
    )
}
