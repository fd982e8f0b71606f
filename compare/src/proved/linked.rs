//! The calls of the archive linked into this program. The archive is for x86-64.

use crate::call::Side;

#[cfg(target_arch = "x86_64")]
pub fn side() -> Option<Side> {
    use leverbonnet::linked;
    Some(Side {
        reduce: linked::reduce,
        reduce_by_figure: linked::reduce_by_figure,
        run_count: linked::run_count,
        run_number: linked::run_number,
        round_layout: linked::round_layout,
        rect_layout: linked::rect_layout,
        sheet_text: linked::sheet_text,
        sheet_text_by_figure: linked::sheet_text_by_figure,
        explain: linked::explain,
        explain_by_figure: linked::explain_by_figure,
        explain_text: linked::explain_text,
        explain_text_by_figure: linked::explain_text_by_figure,
    })
}

#[cfg(not(target_arch = "x86_64"))]
pub fn side() -> Option<Side> {
    None
}
