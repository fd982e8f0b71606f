//! Holds the definitions and laws of the crates to their order:
//!
//! - across the specs of all crates one name has one meaning, and none that the
//!   kit's libraries give to something else;
//! - every definition and law serves a contract, a proof of a function, what
//!   the tactics of the code are told to use, or a theorem that a table of
//!   docs/PROMISES.md names;
//! - every import is used, and no module is imported twice by one file.

mod source;

use std::collections::{BTreeMap, BTreeSet, HashMap};
use std::fs;
use std::io;
use std::path::{Path, PathBuf};

use source::{is_owed, written, Import, Reach, Source};

/// A file of definitions and laws, or of code with its contracts.
struct File {
    path: PathBuf,
    source: Source,
    is_spec: bool,
}

impl File {
    fn is_code(&self) -> bool {
        self.path.extension().map_or(false, |e| e == "rt")
    }
}

fn files(folder: &Path, ending: &str, into: &mut Vec<PathBuf>) -> io::Result<()> {
    let mut entries: Vec<PathBuf> = fs::read_dir(folder)?
        .map(|entry| entry.map(|e| e.path()))
        .collect::<io::Result<_>>()?;
    entries.sort();
    for path in entries {
        if path.is_dir() {
            files(&path, ending, into)?;
        } else if path.extension().map_or(false, |e| e == ending) {
            into.push(path);
        }
    }
    Ok(())
}

/// What a crate is made of. What rt makes of it lies beside these.
const PARTS: [&str; 3] = ["src", "specs", "proofs"];

/// The files of all crates with that ending.
fn all(crates: &Path, names: &BTreeSet<String>, ending: &str) -> io::Result<Vec<PathBuf>> {
    let mut found = Vec::new();
    for name in names {
        let parts = PARTS.iter().map(|part| crates.join(name).join(part));
        for folder in parts.filter(|folder| folder.is_dir()) {
            files(&folder, ending, &mut found)?;
        }
    }
    Ok(found)
}

fn shown<'a>(root: &Path, path: &'a Path) -> std::path::Display<'a> {
    path.strip_prefix(root).unwrap_or(path).display()
}

fn cells(row: &str) -> Vec<&str> {
    row.trim_matches('|').split('|').map(str::trim).collect()
}

/// The theorems that the tables of a text name: what stands in backquotes in
/// a column with the heading "Theorem".
fn theorems(text: &str) -> BTreeSet<String> {
    let mut found = BTreeSet::new();
    // Where that column is in the present table, once its heading was read.
    let mut column: Option<Option<usize>> = None;
    for line in text.lines() {
        if !line.starts_with('|') {
            column = None;
            continue;
        }
        let row = cells(line);
        match column {
            None => column = Some(row.iter().position(|cell| *cell == "Theorem")),
            Some(None) => {}
            Some(Some(at)) => {
                let cell = row.get(at).copied().unwrap_or_default();
                found.extend(cell.split('`').skip(1).step_by(2).map(str::to_string));
            }
        }
    }
    found
}

/// Whether an import is from the kit's libraries: from none of these crates.
fn is_of_kit(import: &Import, crates: &BTreeSet<String>) -> bool {
    let mut parts = import.module.split('.');
    parts.next() != Some("Rattle") || !parts.next().map_or(false, |name| crates.contains(name))
}

/// One sentence for each name that the specs give to two things.
fn doubled(root: &Path, read: &[File], crates: &BTreeSet<String>) -> Vec<String> {
    let kit: BTreeSet<&String> = read
        .iter()
        .flat_map(|file| &file.source.imports)
        .filter(|import| is_of_kit(import, crates))
        .flat_map(|import| &import.names)
        .collect();
    let mut places: BTreeMap<&String, Vec<String>> = BTreeMap::new();
    for file in read.iter().filter(|file| file.is_spec) {
        for definition in &file.source.definitions {
            for name in std::iter::once(&definition.name).chain(&definition.cases) {
                places
                    .entry(name)
                    .or_default()
                    .push(shown(root, &file.path).to_string());
            }
        }
    }
    let mut found = Vec::new();
    for (name, at) in places {
        if at.len() > 1 {
            found.push(format!(
                "`{}` is defined more than once: {}.",
                name,
                at.join(", ")
            ));
        } else if kit.contains(name) {
            found.push(format!(
                "`{}`, {}, is a name of the kit's libraries.",
                name, at[0]
            ));
        }
    }
    found
}

/// One sentence for each definition and law that serves nothing. What serves
/// is what the roots cite, what that cites, and so on.
fn idle(root: &Path, read: &[File], roots: &BTreeSet<String>) -> Vec<String> {
    // Where a name is defined: which file, and which definition of it.
    let mut homes: HashMap<&str, Vec<(usize, usize)>> = HashMap::new();
    for (f, file) in read.iter().enumerate() {
        for (d, definition) in file.source.definitions.iter().enumerate() {
            for name in std::iter::once(&definition.name).chain(&definition.cases) {
                homes.entry(written(name)).or_default().push((f, d));
            }
        }
    }
    let taken: Vec<BTreeSet<&str>> = read
        .iter()
        .map(|file| file.source.taken().map(|name| written(name)).collect())
        .collect();
    let mut serves: BTreeSet<(usize, usize)> = BTreeSet::new();
    let mut next: Vec<(usize, usize)> = Vec::new();
    for (&name, places) in &homes {
        if roots.contains(name) {
            next.extend(places);
        }
    }
    for (f, file) in read.iter().enumerate() {
        // A proof that walks the code stands alone in its file, under the
        // function's name.
        let is_walk = file.path.file_name().map_or(false, |n| n == "Proof.antt");
        let proofs = file.source.definitions.iter().enumerate();
        next.extend(
            proofs
                .filter(|(_, d)| d.answers || is_walk && d.name.ends_with("_spec"))
                .map(|(d, _)| (f, d)),
        );
    }
    while let Some((f, d)) = next.pop() {
        if !serves.insert((f, d)) {
            continue;
        }
        for name in &read[f].source.definitions[d].cites {
            let own = homes.get(name.as_str()).into_iter().flatten();
            next.extend(own.filter(|(g, _)| *g == f || taken[f].contains(name.as_str())));
        }
    }
    let mut found = Vec::new();
    for (f, file) in read.iter().enumerate().filter(|(_, file)| !file.is_code()) {
        for (d, definition) in file.source.definitions.iter().enumerate() {
            if !serves.contains(&(f, d)) {
                found.push(format!(
                    "`{}`, {}, serves nothing.",
                    definition.name,
                    shown(root, &file.path)
                ));
            }
        }
    }
    found
}

/// One sentence for each name that is imported and not used, and for each
/// module that is imported again.
fn imports(root: &Path, read: &[File]) -> Vec<String> {
    let mut found = Vec::new();
    for file in read {
        let mut modules = BTreeSet::new();
        for import in &file.source.imports {
            let is_own = import.reach == Reach::File && !import.names.is_empty();
            if is_own && !modules.insert(&import.module) {
                found.push(format!(
                    "{} imports `{}` twice.",
                    shown(root, &file.path),
                    import.module
                ));
            }
        }
        let definitions = &file.source.definitions;
        let cites = definitions.iter().flat_map(|d| &d.cites);
        let used: BTreeSet<&str> = cites.map(String::as_str).collect();
        // What was known at a goal is asked for by its name behind a dot.
        let fields = definitions.iter().flat_map(|d| &d.fields);
        let asked: BTreeSet<&str> = fields.map(String::as_str).collect();
        let kept = file.source.imports.iter();
        let kept = kept.filter(|import| import.reach != Reach::Others);
        let taken = kept.flat_map(|import| import.names.iter().map(move |name| (import, name)));
        for (import, name) in taken {
            let is_asked = is_owed(import) && asked.contains(name.as_str());
            if !is_asked && !used.contains(written(name)) {
                found.push(format!(
                    "`{}` is imported by {} and not used.",
                    name,
                    shown(root, &file.path)
                ));
            }
        }
    }
    found
}

/// What is out of order in a project, a sentence each.
pub fn complaints(root: &Path) -> io::Result<Vec<String>> {
    let folder = root.join("crates");
    let crates: BTreeSet<String> = fs::read_dir(&folder)?
        .map(|entry| entry.map(|e| e.file_name().to_string_lossy().into_owned()))
        .collect::<io::Result<_>>()?;
    let mut read = Vec::new();
    for path in all(&folder, &crates, "antt")? {
        let text = fs::read_to_string(&path)?;
        let is_spec = path.components().any(|part| part.as_os_str() == "specs");
        read.push(File {
            source: Source::of(&text),
            path,
            is_spec,
        });
    }
    for path in all(&folder, &crates, "rt")? {
        let text = fs::read_to_string(&path)?;
        read.push(File {
            source: Source::of_code(&text),
            path,
            is_spec: false,
        });
    }
    let mut roots = theorems(&fs::read_to_string(root.join("docs/PROMISES.md"))?);
    // What a contract mentions and its file does not import is a parameter.
    for file in read.iter().filter(|file| file.is_code()) {
        let cited = file.source.definitions.iter().flat_map(|d| &d.cites);
        let taken: BTreeSet<&str> = file.source.taken().map(|name| written(name)).collect();
        roots.extend(cited.filter(|name| taken.contains(name.as_str())).cloned());
        roots.extend(file.source.told.iter().cloned());
    }
    let mut found = doubled(root, &read, &crates);
    found.extend(idle(root, &read, &roots));
    found.extend(imports(root, &read));
    Ok(found)
}
