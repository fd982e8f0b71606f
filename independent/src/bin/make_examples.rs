//! Writes the job files and figures of `examples/`, and the sheets and explanations
//! expected of them.

use std::fs;
use std::io;
use std::path::Path;

use independent::{explanations, explanations_by_figure, samples, sheet, sheet_by_figure};

fn main() -> io::Result<()> {
    let folder = Path::new(concat!(env!("CARGO_MANIFEST_DIR"), "/../examples"));
    fs::create_dir_all(folder)?;
    for (name, sample) in samples::WITH_SHEETS {
        let job = sample().bytes();
        fs::write(folder.join(format!("{name}.txt")), sheet(&job))?;
        fs::write(folder.join(format!("{name}.job")), job)?;
    }
    for (name, sample) in samples::WITHOUT {
        fs::write(folder.join(format!("{name}.job")), sample().bytes())?;
    }
    for (name, sample) in samples::EXPLAINED {
        let text = explanations(&sample().bytes());
        fs::write(folder.join(format!("{name}.explained")), text)?;
    }
    for named in samples::FIGURES {
        let figure = (named.figure)().bytes();
        let by_figure = folder.join(named.name);
        fs::create_dir_all(&by_figure)?;
        for (name, sample) in named.with_sheets {
            let text = sheet_by_figure(&figure, &sample().bytes());
            fs::write(by_figure.join(format!("{name}.txt")), text)?;
        }
        for (name, sample) in named.explained {
            let text = explanations_by_figure(&figure, &sample().bytes());
            fs::write(by_figure.join(format!("{name}.explained")), text)?;
        }
        fs::write(folder.join(format!("{}.fig", named.name)), figure)?;
    }
    Ok(())
}
