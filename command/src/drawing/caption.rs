//! The lines at the top of a page: what is drawn, and what to know of it.

use super::page::{at, Part, Shape, LEFT, RIGHT, TOP};
use super::text::{characters, Text, NAME};

const TITLE: f64 = 10.0;
/// From one line to the next.
const LINE: f64 = 12.0;
/// Between the title and the sentences.
const SPACE: f64 = 4.0;

pub struct Caption {
    pub part: Part,
    /// Where it ends.
    pub bottom: f64,
}

/// A caption; each sentence begins on a line of its own.
pub fn caption(title: &str, sentences: &[String]) -> Caption {
    let title = broken(&[title.into()], TITLE).into_iter().map(Text::bold);
    let mut column = Column::new();
    column.add(title);
    column.bottom += SPACE;
    column.add(broken(sentences, NAME));
    Caption {
        bottom: column.bottom,
        part: Part {
            name: "caption",
            shapes: column.shapes,
        },
    }
}

/// Lines below one another.
struct Column {
    shapes: Vec<Shape>,
    bottom: f64,
}

impl Column {
    fn new() -> Column {
        Column {
            shapes: Vec::new(),
            bottom: TOP,
        }
    }

    fn add(&mut self, lines: impl IntoIterator<Item = Text>) {
        for line in lines {
            let middle = self.bottom + LINE / 2.0;
            self.shapes.push(line.starting(at(LEFT, middle)));
            self.bottom += LINE;
        }
    }
}

/// Sentences as lines that fit the page.
fn broken(sentences: &[String], size: f64) -> Vec<Text> {
    let most = characters(RIGHT - LEFT, size);
    let lines = sentences.iter().flat_map(|sentence| lines(sentence, most));
    lines.map(|line| Text::new(line, size)).collect()
}

/// A sentence broken into lines of at most so many characters.
fn lines(sentence: &str, most: usize) -> Vec<String> {
    let mut lines: Vec<String> = Vec::new();
    for word in sentence.split(' ') {
        match lines.last_mut() {
            Some(line) if line.len() + 1 + word.len() <= most => {
                line.push(' ');
                line.push_str(word);
            }
            _ => lines.push(word.into()),
        }
    }
    lines
}

#[cfg(test)]
mod tests {
    use super::lines;

    #[test]
    fn a_sentence_is_broken_between_words() {
        assert_eq!(lines("one two three", 13), ["one two three"]);
        assert_eq!(lines("one two three", 12), ["one two", "three"]);
        assert_eq!(lines("one two three", 7), ["one two", "three"]);
        assert_eq!(lines("one two three", 6), ["one", "two", "three"]);
    }
}
