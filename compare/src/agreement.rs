//! The same calls with the same lent bytes on both sides, or on a job and its twin in
//! the other version, and where they part.

use leverbonnet::pipe::{Call, Files};

use crate::call::{only, Outcome, Side, Trial};
use crate::case::Expected;
use crate::proved::Proved;

pub const INDEPENDENT: Side = Side {
    reduce: independent::reduce,
    reduce_by_figure: independent::reduce_by_figure,
    run_count: independent::run_count,
    run_number: independent::run_number,
    round_layout: independent::round_layout,
    rect_layout: independent::rect_layout,
    sheet_text: independent::sheet_text,
    sheet_text_by_figure: independent::sheet_text_by_figure,
    explain: independent::explain,
    explain_by_figure: independent::explain_by_figure,
    explain_text: independent::explain_text,
    explain_text_by_figure: independent::explain_text_by_figure,
};

/// How many calls on one job, or on none, are compared at once where there may be many.
pub const TOGETHER: usize = 64;

/// Where two that should give the same part, and what each gave.
pub struct Difference {
    pub what: String,
    pub given: String,
}

impl Difference {
    /// The two sides part.
    pub fn of_sides(what: String, proved: &str, independent: &str) -> Self {
        let given = format!("proved: {proved}\nindependent: {independent}");
        Difference { what, given }
    }

    /// Both sides agree, but not on what was to come.
    pub fn unexpected(what: &str, expected: Expected, refusal: u32) -> Self {
        Difference::of_sides(
            format!("{what}, where {expected:?} was to come"),
            &format!("refusal {refusal} (0 is success)"),
            "the same",
        )
    }
}

/// What both sides give for each call under one fill, when they agree in every
/// byte under two.
pub fn agreed(proved: &Proved, calls: &[Call], files: Files) -> Result<Vec<Outcome>, Difference> {
    let fills = proved.fills();
    let trials: Vec<Trial> = calls
        .iter()
        .flat_map(|&call| fills.map(|fill| Trial { call, fill }))
        .collect();
    let mut outcomes = Vec::with_capacity(trials.len());
    for (trial, proved) in trials.iter().zip(proved.made(&trials, files)) {
        let independent = trial.made(&INDEPENDENT, files);
        if proved.as_ref() != Ok(&independent) {
            let (what, independent) = (trial.to_string(), independent.to_string());
            return Err(Difference::of_sides(what, &told(proved), &independent));
        }
        outcomes.push(independent);
    }
    assert_eq!(outcomes.len(), trials.len(), "every call was made");
    Ok(outcomes.into_iter().step_by(fills.len()).collect())
}

fn told(made: Result<Outcome, String>) -> String {
    match made {
        Ok(outcome) => outcome.to_string(),
        Err(trouble) => trouble,
    }
}

/// Whether each call on a job's twin gives of the proved library what it gave on the
/// job itself.
pub fn agreed_on_twin(
    proved: &Proved,
    on_job: &[(Call, &Outcome)],
    twin: &[u8],
) -> Result<(), Difference> {
    let [fill, _] = proved.fills();
    let trials: Vec<Trial> = on_job
        .iter()
        .map(|&(call, _)| Trial { call, fill })
        .collect();
    let on_twin = proved.made(&trials, only(twin));
    for ((trial, &(_, on_job)), on_twin) in trials.iter().zip(on_job).zip(on_twin) {
        if on_twin.as_ref() != Ok(on_job) {
            return Err(Difference {
                what: format!("{trial}, on the job and on its twin in the other version"),
                given: format!("on the job: {on_job}\non its twin: {}", told(on_twin)),
            });
        }
    }
    Ok(())
}

/// The same, when each call also comes to what was to come of it.
pub fn agreed_as_expected(
    proved: &Proved,
    calls: &[(Call, Expected)],
    files: Files,
) -> Result<Vec<Outcome>, Difference> {
    let made: Vec<Call> = calls.iter().map(|&(call, _)| call).collect();
    let outcomes = agreed(proved, &made, files)?;
    for (&(call, expected), outcome) in calls.iter().zip(&outcomes) {
        let refusal = outcome.refusal();
        if !expected.admits(refusal) {
            let what = format!("{call:?}");
            return Err(Difference::unexpected(&what, expected, refusal));
        }
    }
    Ok(outcomes)
}
