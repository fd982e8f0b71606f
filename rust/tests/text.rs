//! The text of each example, without a figure and by each figure, against the stored
//! sheets.

mod stored;

use std::fs;

use leverbonnet::{sheet_text, sheet_text_by_figure, Error};

/// What the program `sheet` prints.
fn printed(job: &[u8]) -> Vec<u8> {
    text_or_refusal(sheet_text(job))
}

fn text_or_refusal(text: Result<Vec<u8>, Error>) -> Vec<u8> {
    match text {
        Ok(text) => text,
        Err(Error::Refused(refusal)) => {
            format!("REFUSED {} {}\n", refusal.number, refusal.place).into_bytes()
        }
        Err(unreached) => panic!("{unreached}"),
    }
}

#[test]
fn each_example_has_its_stored_text() {
    for path in stored::texts() {
        let job = fs::read(path.with_extension("job")).unwrap();
        let stored = fs::read(&path).unwrap();
        assert!(printed(&job) == stored, "{}", path.display());
    }
}

/// The plain sheets by a figure lie in the folder of its name.
#[test]
fn each_example_by_a_figure_has_its_stored_text() {
    let mut compared = 0;
    for figure in stored::with_ending(&stored::examples(), "fig") {
        let texts = stored::with_ending(&figure.with_extension(""), "txt");
        let figure = fs::read(figure).unwrap();
        for path in texts {
            let name = path.with_extension("job");
            let name = name.file_name().expect("it has a name");
            let job = fs::read(stored::examples().join(name)).unwrap();
            let text = text_or_refusal(sheet_text_by_figure(&figure, &job));
            assert!(text == fs::read(&path).unwrap(), "{}", path.display());
            compared += 1;
        }
    }
    assert!(compared >= 2, "the sheets by a figure are found");
}

#[test]
fn bytes_past_the_longest_job_do_not_change_the_refusal() {
    for (name, refused) in [
        ("longest.job", b"REFUSED 8 17161\n"),
        ("longest-version-2.job", b"REFUSED 8 17273\n"),
    ] {
        let mut job = fs::read(stored::examples().join(name)).unwrap();
        job.resize(100_000, 0);
        assert_eq!(printed(&job), refused);
    }
}
