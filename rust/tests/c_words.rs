//! The names and sentences of the C package are those of this one: each table of
//! c/leverbonnet_words.c is the table here, row by row.

use std::fmt::Write;

use leverbonnet::{texts, Class};

const C: &str = include_str!("../../c/leverbonnet_words.c");

/// The rows of the C table of that name.
fn table(name: &str) -> &'static str {
    let head = format!("}} {name}[] = {{\n");
    let start = C.find(&head).expect("the table is there") + head.len();
    let length = C[start..].find("};\n").expect("the table ends");
    &C[start..start + length]
}

#[test]
fn lines() {
    let mut rows = String::new();
    for (index, line) in texts::LINES.iter().enumerate() {
        assert_eq!(usize::from(line.number), index + 1, "C goes by the row");
        let (name, unit, decimals) = (line.name, line.unit, line.decimals);
        writeln!(rows, "    {{\"{name}\", \"{unit}\", {decimals}}},").unwrap();
    }
    assert_eq!(table("line_texts"), rows);
}

#[test]
fn rules() {
    let mut rows = String::new();
    for rule in texts::RULES {
        let (number, clause, place) = (rule.number, rule.clause, rule.place);
        writeln!(rows, "    {{{number}, \"{clause}\", \"{place}\"}},").unwrap();
    }
    assert_eq!(table("rule_texts"), rows);
}

#[test]
fn classes() {
    let mut rows = String::new();
    for text in texts::CLASSES {
        let (rule, clause) = (text.rule, text.clause);
        let fault = u8::from(text.class == Class::Fault);
        writeln!(rows, "    {{{rule}, {fault}, \"{clause}\"}},").unwrap();
    }
    assert_eq!(table("class_texts"), rows);
}

#[test]
fn refusals() {
    let mut rows = String::new();
    for refusal in texts::REFUSALS {
        let (number, clause) = (refusal.number, refusal.clause);
        writeln!(rows, "    {{{number}, \"{clause}\"}},").unwrap();
    }
    assert_eq!(table("refusal_texts"), rows);
}
