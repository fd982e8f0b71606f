//! A file of definitions and laws, taken apart: what it imports, what it
//! defines, and which names each definition cites.

use std::collections::BTreeSet;

/// A definition or a law with its name, its cases where it is a `data`, and
/// every name that its signature and its clauses mention.
#[derive(Debug, PartialEq, Eq)]
pub struct Definition {
    pub name: String,
    pub cases: Vec<String>,
    pub cites: BTreeSet<String>,
    /// What stands behind a dot: mostly fields, which are no names of their
    /// own.
    pub fields: BTreeSet<String>,
    /// Whether it is what Rattle asks for under its name: an invariant, a
    /// measure, or the answer to a goal.
    pub answers: bool,
}

/// What an import line takes from a module, but for brackets, which are no name.
#[derive(Debug, PartialEq, Eq)]
pub struct Import {
    pub module: String,
    pub names: Vec<String>,
    pub reach: Reach,
}

/// For whom an import takes its names: for its file, for a block of code in
/// it, or for the files that import this one.
#[derive(Clone, Copy, Debug, PartialEq, Eq)]
pub enum Reach {
    File,
    Block,
    Others,
}

#[derive(Debug, Default)]
pub struct Source {
    pub imports: Vec<Import>,
    pub definitions: Vec<Definition>,
    /// What the tactics of the code are told to use, by name.
    pub told: Vec<String>,
}

/// The modules in which Rattle states what a function's proof owes.
const OWED: [&str; 2] = [".Goals", ".Given"];

/// The places of an operator's arguments.
const HOLE: char = '◌';

/// The signs that stand round a name and are no part of one.
const SIGNS: &str = "()[]{};,.λ«»";

/// A name as it stands where it is used: of an operator the first sign between
/// the places of its arguments, and nothing of brackets.
pub fn written(name: &str) -> &str {
    let mut parts = name.split(HOLE).filter(|part| !part.is_empty());
    parts
        .next()
        .filter(|part| !part.chars().all(|c| SIGNS.contains(c)))
        .unwrap_or_default()
}

/// The words of a line, and whether each stands behind a dot. A comment has
/// none.
fn words(line: &str) -> Vec<(String, bool)> {
    let code = match line.find("--") {
        Some(0) => "",
        Some(at) if line[..at].ends_with(char::is_whitespace) => &line[..at],
        _ => line,
    };
    let mut found = Vec::new();
    let mut word = String::new();
    let mut field = false;
    for c in code.chars().chain([' ']) {
        if c.is_whitespace() || SIGNS.contains(c) {
            if !word.is_empty() {
                found.push((std::mem::take(&mut word), field));
            }
            field = c == '.';
        } else {
            word.push(c);
        }
    }
    found
}

/// The names of a line. A field behind a dot is no name of its own.
fn names(line: &str) -> Vec<String> {
    let words = words(line).into_iter();
    words
        .filter(|(_, field)| !field)
        .map(|(name, _)| name)
        .collect()
}

fn fields(line: &str) -> impl Iterator<Item = String> {
    let words = words(line).into_iter();
    words.filter(|(_, field)| *field).map(|(name, _)| name)
}

fn import(line: &str) -> Option<Import> {
    let inner = line.trim_start();
    let rest = inner.strip_prefix("ghost ").unwrap_or(inner);
    let (rest, reach) = match rest.strip_prefix("pub ") {
        Some(rest) => (rest, Reach::Others),
        None if inner.len() < line.len() => (rest, Reach::Block),
        None => (rest, Reach::File),
    };
    let words = rest.strip_prefix("use ")?.trim_end_matches(';');
    let (module, list) = match words.find(".{") {
        Some(at) => (&words[..at], words[at + 2..].trim_end_matches('}')),
        None => (words, ""),
    };
    let taken = |name: &str| name.split(" as ").last().unwrap_or(name).trim().to_string();
    Some(Import {
        module: module.to_string(),
        names: list
            .split(',')
            .map(taken)
            .filter(|name| !written(name).is_empty())
            .collect(),
        reach,
    })
}

/// Whether an import takes something of what a function's proof owes.
pub fn is_owed(import: &Import) -> bool {
    OWED.iter().any(|end| import.module.ends_with(end))
}

/// The name that an import line gives to what a function's proof owes, as
/// `goal` in `use Rattle.a.proofs.f.Goals as goal`.
fn owed(import: &Import) -> Option<&str> {
    let (module, name) = import.module.split_once(" as ")?;
    OWED.iter()
        .any(|end| module.ends_with(end))
        .then(|| name.trim())
}

/// What a line begins to define: its name, and the kind where it is a record
/// or a data type.
fn begun(line: &str) -> Option<(String, &str)> {
    let mut rest = line.trim_start();
    for word in ["unfoldable ", "abbrev ", "pub "] {
        rest = rest.strip_prefix(word).unwrap_or(rest);
    }
    for kind in ["record ", "data ", "ruleset "] {
        if let Some(typed) = rest.strip_prefix(kind) {
            return Some((names(typed).into_iter().next()?, kind.trim_end()));
        }
    }
    let mut words = rest.split_whitespace();
    let name = words.next()?;
    (words.next() == Some(":") && name != "_").then(|| (name.to_string(), ""))
}

fn without_comment(line: &str) -> &str {
    match line.find("//") {
        // An address in a text.
        Some(at) if line[..at].ends_with(':') => line,
        Some(at) => &line[..at],
        None => line,
    }
}

/// What stands between the bracket at the start of a text and the one that
/// closes it.
fn bracketed(text: &str, open: char, close: char) -> &str {
    let mut depth = 0;
    for (at, c) in text.char_indices() {
        if c == open {
            depth += 1;
        } else if c == close {
            depth -= 1;
            if depth == 0 {
                return &text[open.len_utf8()..at];
            }
        }
    }
    ""
}

/// Where a word stands in a text, and no longer word that it is a part of.
fn standing<'a>(text: &'a str, word: &'a str) -> impl Iterator<Item = usize> + 'a {
    let is_part = |c: Option<char>| c.map_or(false, |c| c.is_alphanumeric() || c == '_');
    text.match_indices(word)
        .map(|(at, _)| at)
        .filter(move |at| {
            !is_part(text[..*at].chars().next_back())
                && !is_part(text[at + word.len()..].chars().next())
        })
}

/// The clauses of code without comments, each without its braces: what is
/// required and ensured, and what is ghost.
fn contracts(code: &str) -> impl Iterator<Item = &str> {
    let words = ["requires", "ensures", "ghost"].into_iter();
    words
        .flat_map(move |word| standing(code, word).map(move |at| &code[at + word.len()..]))
        .filter(|rest| !rest.trim_start().starts_with("use "))
        .filter_map(|rest| {
            let open = rest.find('{')?;
            let named = !rest[..open].contains(|c| ";)".contains(c));
            named.then(|| bracketed(&rest[open..], '{', '}'))
        })
}

/// What the tactics of code are told to use: the last part of each path in
/// `using(..)` and `unfolding(..)`.
fn told(code: &str) -> Vec<String> {
    let words = ["using", "unfolding"].into_iter();
    let lists = words
        .flat_map(|word| standing(code, word).map(move |at| &code[at + word.len()..]))
        .filter(|rest| rest.starts_with('('))
        .map(|rest| bracketed(rest, '(', ')'));
    let paths = lists.flat_map(|list| list.split(','));
    let ends = paths.filter_map(|path| path.rsplit("::").next());
    let ends = ends.map(str::trim).filter(|name| !name.is_empty());
    ends.map(str::to_string).collect()
}

impl Source {
    /// The text of a file of definitions and laws.
    pub fn of(text: &str) -> Source {
        let mut source = Source::default();
        // The modules that are open: how far what stands in them is indented,
        // and the names that they are over.
        let mut modules: Vec<(usize, Vec<String>)> = Vec::new();
        // The record or data type that is open, and how far it is indented.
        let mut typed: Option<(usize, &str)> = None;
        // The start of what Rattle asks for, as `goal.`.
        let mut asked: Vec<String> = Vec::new();
        for line in text.lines() {
            if let Some(taken) = import(line) {
                asked.extend(owed(&taken).map(|name| format!("{}.", name)));
                source.imports.push(taken);
                continue;
            }
            if line.trim().is_empty() {
                continue;
            }
            let indent = line.len() - line.trim_start().len();
            while modules.last().map_or(false, |(within, _)| indent < *within) {
                modules.pop();
            }
            if typed.map_or(false, |(at, _)| indent <= at) {
                typed = None;
            }
            if line.trim_start().starts_with("module ") {
                modules.push((indent + 2, names(line)));
                continue;
            }
            let within = modules.last().map_or(0, |(within, _)| *within);
            match (typed, begun(line)) {
                (None, Some((name, kind))) if indent == within => {
                    let over = modules.iter().flat_map(|(_, over)| over.iter().cloned());
                    let cites = names(line).into_iter().chain(over).collect();
                    let of = line.split(" : ").nth(1).unwrap_or_default().trim();
                    let answers = asked
                        .iter()
                        .any(|start| of.strip_prefix(start.as_str()) == Some(&name));
                    source.definitions.push(Definition {
                        name,
                        cases: Vec::new(),
                        cites,
                        fields: fields(line).collect(),
                        answers,
                    });
                    if !kind.is_empty() {
                        typed = Some((indent, kind));
                    }
                }
                (Some((at, "data")), Some((case, _))) if indent == at + 2 => {
                    let last = source
                        .definitions
                        .last_mut()
                        .expect("a data type is a definition");
                    last.cases.push(case);
                    last.cites.extend(names(line));
                }
                _ => {
                    if let Some(last) = source.definitions.last_mut() {
                        last.cites.extend(names(line));
                        last.fields.extend(fields(line));
                    }
                }
            }
        }
        source
    }

    /// The text of a file of code: its contracts, as one definition without a
    /// name, what is imported for them, and what its tactics are told to use.
    pub fn of_code(text: &str) -> Source {
        let lines = text.lines();
        let code: String = lines
            .map(|line| without_comment(line).to_string() + "\n")
            .collect();
        let ghosts = code
            .lines()
            .filter(|line| line.trim_start().starts_with("ghost use "));
        Source {
            imports: ghosts.filter_map(import).collect(),
            definitions: vec![Definition {
                name: String::new(),
                cases: Vec::new(),
                cites: contracts(&code).flat_map(names).collect(),
                fields: contracts(&code).flat_map(fields).collect(),
                answers: false,
            }],
            told: told(&code),
        }
    }

    /// The names that the imports take.
    pub fn taken(&self) -> impl Iterator<Item = &String> {
        self.imports.iter().flat_map(|import| &import.names)
    }
}

#[cfg(test)]
mod tests {
    use super::*;

    fn cited(source: &Source, name: &str) -> Vec<String> {
        let definition = source.definitions.iter().find(|d| d.name == name);
        definition.expect(name).cites.iter().cloned().collect()
    }

    #[test]
    fn takes_a_file_apart() {
        let source = Source::of(
            "-- What it is.\n\
             use Rattle.std.specs.Prelude.{[], ◌∷◌, leb, eqb}\n\
             use Rattle.a.specs.B.{short as brief}\n\
             \n\
             -- a law, not other\n\
             unfoldable pub law : ℕ → ℕ\n\
             law n = brief (n .field) -- nor last\n\
             \n\
             pub record Small (n : ℕ) : Type 0 where\n\
             \x20 pub least : n ≡ five\n\
             \n\
             pub data Way : Type 0 where\n\
             \x20 up : ℕ → Way\n\
             \n\
             module _ (n : ℕ) (h : Small n) where\n\
             \x20 pub inner : ℕ\n\
             \x20 inner = law n\n\
             \n\
             pub ruleset laws = (law, inner)\n\
             \n\
             infixl 50 ◌by◌\n\
             pub ◌by◌ : ℕ → ℕ → ℕ\n\
             a by b = 2 by inner\n",
        );
        let taken: Vec<_> = source.taken().cloned().collect();
        assert_eq!(taken, ["◌∷◌", "leb", "eqb", "brief"]);
        let defined: Vec<_> = source.definitions.iter().map(|d| d.name.as_str()).collect();
        assert_eq!(defined, ["law", "Small", "Way", "inner", "laws", "◌by◌"]);
        assert_eq!(source.definitions[2].cases, ["up"]);
        assert!(cited(&source, "law").contains(&"brief".to_string()));
        assert!(!cited(&source, "law").contains(&"field".to_string()));
        assert!(!cited(&source, "law").contains(&"last".to_string()));
        assert!(cited(&source, "Small").contains(&"five".to_string()));
        assert!(cited(&source, "inner").contains(&"law".to_string()));
        assert!(cited(&source, "inner").contains(&"Small".to_string()));
        assert!(cited(&source, "laws").contains(&"law".to_string()));
        assert!(cited(&source, "◌by◌").contains(&"by".to_string()));
        assert!(source.definitions.iter().all(|d| !d.answers));
    }

    #[test]
    fn names_operators_by_their_first_sign() {
        assert_eq!(written("◌+◌"), "+");
        assert_eq!(written("◌broken_if◌"), "broken_if");
        assert_eq!(written("if◌then◌else◌"), "if");
        assert_eq!(written("plain_word"), "plain_word");
        assert_eq!(written("[]"), "");
        assert_eq!(written("◌[◌]"), "");
    }

    #[test]
    fn knows_what_is_asked_for() {
        let source = Source::of(
            "use Rattle.a.proofs.f.Goals as goal\n\
             use Rattle.a.proofs.Laws as laws\n\
             \n\
             helper : goal.returns\n\
             helper = returns\n\
             \n\
             pub returns : goal.returns\n\
             returns c = c.f.ensures\n\
             \n\
             pub law : laws.law\n\
             law = refl\n",
        );
        let asked: Vec<_> = source.definitions.iter().map(|d| d.answers).collect();
        assert_eq!(asked, [false, true, false]);
    }

    #[test]
    fn knows_for_whom_an_import_is() {
        let source = Source::of_code(
            "ghost use Rattle.a.specs.B.{answer};\n\
             impl Model for A {\n    ghost use Rattle.a.specs.B.{inner};\n}\n",
        );
        let reach: Vec<_> = source.imports.iter().map(|import| import.reach).collect();
        assert_eq!(reach, [Reach::File, Reach::Block]);
        let source = Source::of("pub use Rattle.a.specs.B.{answer}\n");
        assert_eq!(source.imports[0].reach, Reach::Others);
    }

    #[test]
    fn reads_contracts() {
        let source = Source::of_code(
            "use a::b;\n\
             ghost use Rattle.a.specs.B.{answer};\n\
             // What one requires of { this }.\n\
             pub struct Part {\n    pub n: u8,\n    ghost few: { n < bound },\n}\n\
             fn f()\n    requires { IsSmall s.now }\n    \
             ensures low { result ≡ answer record { part = s.old } }\n    \
             ensures high { long\n        ≤ longer }\n{ other() }\n\
             fn requires_no(ghost: u8) { another() }\n",
        );
        assert_eq!(source.taken().collect::<Vec<_>>(), ["answer"]);
        let names = cited(&source, "");
        for name in ["IsSmall", "answer", "part", "bound", "long", "longer"] {
            assert!(names.contains(&name.to_string()), "{}", name);
        }
        for name in ["this", "other", "another", "now", "old", "low", "few"] {
            assert!(!names.contains(&name.to_string()), "{}", name);
        }
    }

    #[test]
    fn reads_what_tactics_are_told() {
        let source = Source::of_code(
            "#[tactic(auto, using(crate::proofs::Runs::law, std::proofs::lemmas::Grind::common_steps), \
             unfolding(crate::specs::Runs::larger))]\nfn using() {}\n",
        );
        assert_eq!(source.told, ["law", "common_steps", "larger"]);
    }
}
