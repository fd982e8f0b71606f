//! The sheets of each job, or the line of its refusal, plain or in words. Where a
//! figure is asked for all jobs go by it; one that is refused is all that is printed.

use std::io;

use words::{Sheet, Status};

use crate::calls;
use crate::page::{self, Page};

/// Prints each job in turn. Nothing stops the rest but an output that can't be
/// written, and the worst of all counts.
pub fn printed(sheet: &Sheet) -> Status {
    page::by_figure(&sheet.figure, sheet.in_words, |figure| {
        jobs_printed(sheet, figure)
    })
}

fn jobs_printed(sheet: &Sheet, figure: Option<&[u8]>) -> io::Result<Status> {
    let mut worst = Status::Done;
    for source in &sheet.sources {
        let mut page = Page::of(source, sheet.in_words);
        if sheet.sources.len() > 1 {
            page.put_heading();
        }
        page.put_job(|job| {
            if sheet.in_words {
                calls::in_words(figure, job)
            } else {
                calls::plain(figure, job)
            }
        });
        worst = worst.max(page.printed()?);
    }
    Ok(worst)
}
