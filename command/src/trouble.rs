//! What is said where a proved call gave no answer.

use leverbonnet::Refusal;

/// The printed line of a refusal.
pub fn refused(refusal: &Refusal) -> String {
    format!("REFUSED {} {}\n", refusal.number, refusal.place)
}

/// What is wrong with a refused job and where, as the end of a sentence. A run or a
/// finding that it does not have is about no byte of it.
pub fn in_job(refusal: &Refusal, job: &[u8]) -> String {
    let (number, place) = (refusal.number, refusal.place);
    let clause = refusal.in_job(job);
    if refusal.is_about_a_byte_of_the_job() {
        format!("{clause} ({number} at byte {place}).")
    } else {
        format!("{clause} ({number}).")
    }
}

/// What is wrong with a refused figure and where, as the end of a sentence.
pub fn in_figure(refusal: &Refusal, figure: &[u8]) -> String {
    let (number, place) = (refusal.number, refusal.place);
    let clause = refusal.in_figure(figure);
    format!("{clause} ({number} at byte {place} of the figure).")
}

/// A sentence for calls that were not made.
pub fn unreached(why: &str) -> String {
    format!("the proved calls can not be reached: {why}.")
}
