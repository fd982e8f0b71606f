//! The project's pages lead where they say: links, headings, paths and edits.

use std::fs;
use std::path::{Path, PathBuf};

fn project() -> &'static Path {
    let package = Path::new(env!("CARGO_MANIFEST_DIR"));
    package.parent().expect("the package lies in its project")
}

fn read(path: &Path) -> String {
    fs::read_to_string(path).unwrap_or_else(|error| panic!("{}: {}", path.display(), error))
}

fn files(folder: &str, ending: &str) -> Vec<PathBuf> {
    let listed = fs::read_dir(project().join(folder)).expect("the folder is there");
    let paths = listed.map(|file| file.expect("it can be listed").path());
    paths
        .filter(|path| path.extension().map_or(false, |found| found == ending))
        .collect()
}

fn pages() -> Vec<PathBuf> {
    let mut pages = files("docs", "md");
    pages.push(project().join("README.md"));
    pages
}

/// What stands between each `open` and the next `close`.
fn between<'a>(text: &'a str, open: &str, close: char) -> Vec<&'a str> {
    let parts = text.split(open).skip(1);
    parts.filter_map(|part| part.split(close).next()).collect()
}

/// A heading as a link names it.
fn anchor(heading: &str) -> String {
    let kept = heading.trim().chars().filter_map(|one| match one {
        ' ' | '-' => Some('-'),
        _ if one.is_alphanumeric() => Some(one.to_ascii_lowercase()),
        _ => None,
    });
    kept.collect()
}

fn has_heading(page: &str, wanted: &str) -> bool {
    let headings = page.lines().filter(|line| line.starts_with('#'));
    let mut anchors = headings.map(|line| anchor(line.trim_start_matches('#')));
    anchors.any(|found| found == wanted)
}

#[test]
fn every_link_leads_to_a_file_and_a_heading_that_are_there() {
    let mut met = 0;
    for page in pages() {
        let text = read(&page);
        let links = between(&text, "](", ')').into_iter();
        for link in links.filter(|link| !link.starts_with("https://")) {
            let (file, heading) = link.split_once('#').unwrap_or((link, ""));
            let target = match file {
                "" => page.clone(),
                _ => page.parent().expect("a page lies in a folder").join(file),
            };
            assert!(target.exists(), "{}: {}", page.display(), link);
            if !heading.is_empty() {
                assert!(
                    has_heading(&read(&target), heading),
                    "{}: {}",
                    page.display(),
                    link
                );
            }
            met += 1;
        }
    }
    assert!(met > 40, "{} links", met);
}

#[test]
fn every_path_of_a_crate_is_there() {
    let mut met = 0;
    for page in pages() {
        let text = read(&page);
        for path in between(&text, "`crates/", '`') {
            let target = project().join("crates").join(path);
            assert!(target.exists(), "{}: crates/{}", page.display(), path);
            met += 1;
        }
    }
    assert!(met > 40, "{} paths", met);
}

#[test]
fn every_edit_is_told_in_the_promises() {
    let promises = read(&project().join("docs/PROMISES.md"));
    let crates = read(&project().join("crates.txt"));
    let names = crates.lines().filter_map(|line| line.split(':').next());
    let mut met = 0;
    for name in names {
        let folder = format!("crates/{}/must-fail", name);
        if !project().join(&folder).is_dir() {
            continue;
        }
        for edit in files(&folder, "edit") {
            let edit = edit.file_stem().expect("a file has a name");
            let told = format!("`{}`", edit.to_string_lossy());
            assert!(promises.contains(&told), "{} of {}", told, name);
            met += 1;
        }
    }
    assert!(met > 80, "{} edits", met);
}
