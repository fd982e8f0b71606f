//! A drawing read back.

pub struct Svg {
    pub text: String,
}

/// A tag without its brackets.
#[derive(Clone, Copy)]
pub struct Tag<'a>(&'a str);

impl<'a> Tag<'a> {
    fn name(self) -> &'a str {
        self.0.split([' ', '/']).next().unwrap_or("")
    }

    pub fn value(self, attribute: &str) -> Option<&'a str> {
        let start = self.0.find(&format!(" {attribute}=\""))? + attribute.len() + 3;
        let length = self.0[start..].find('"')?;
        Some(&self.0[start..start + length])
    }

    fn number(self, attribute: &str) -> f64 {
        let text = self.value(attribute).expect("the attribute is there");
        text.parse().expect("it is a number")
    }
}

impl Svg {
    pub fn read(text: String) -> Svg {
        Svg { text }
    }

    pub fn tags(&self) -> Vec<Tag<'_>> {
        tags(&self.text)
    }

    /// A named part of the page.
    fn part(&self, name: &str) -> &str {
        let opening = format!("<g id=\"{name}\">\n");
        let start = self.text.find(&opening).expect("the part is there") + opening.len();
        let length = self.text[start..].find("</g>").expect("the part ends");
        &self.text[start..start + length]
    }

    /// The texts of a part, in order.
    pub fn texts(&self, part: &str) -> Vec<String> {
        let part = self.part(part);
        let lines = part.lines().filter_map(|line| line.strip_suffix("</text>"));
        lines
            .map(|line| line[line.find('>').expect("its tag ends") + 1..].into())
            .collect()
    }

    /// The attributes of those tags in a part that have this stroke's width.
    fn stroked<const N: usize>(
        &self,
        part: &str,
        name: &str,
        width: &str,
        attributes: [&str; N],
    ) -> Vec<[f64; N]> {
        tags(self.part(part))
            .into_iter()
            .filter(|tag| tag.name() == name && tag.value("stroke-width") == Some(width))
            .map(|tag| attributes.map(|attribute| tag.number(attribute)))
            .collect()
    }

    /// The ends of lines.
    pub fn lines(&self, part: &str, width: &str) -> Vec<[f64; 4]> {
        self.stroked(part, "line", width, ["x1", "y1", "x2", "y2"])
    }

    /// The middles and radii of circles.
    pub fn circles(&self, part: &str, width: &str) -> Vec<[f64; 3]> {
        self.stroked(part, "circle", width, ["cx", "cy", "r"])
    }

    /// The corners, widths and heights of rectangles.
    pub fn rectangles(&self, part: &str, width: &str) -> Vec<[f64; 4]> {
        self.stroked(part, "rect", width, ["x", "y", "width", "height"])
    }

    /// The middles of the circles that are filled.
    pub fn dots(&self, part: &str) -> Vec<[f64; 2]> {
        tags(self.part(part))
            .into_iter()
            .filter(|tag| tag.name() == "circle" && tag.value("stroke").is_none())
            .map(|tag| [tag.number("cx"), tag.number("cy")])
            .collect()
    }

    /// The x of the probe's zero wall, which is drawn heavy, and of its far
    /// wall.
    pub fn probe(&self) -> [f64; 2] {
        ["3", "1"].map(|width| self.lines("probe", width)[0][0])
    }

    pub fn assert_well_formed(&self) {
        let mut open = Vec::new();
        for tag in self.tags() {
            assert_eq!(tag.0.matches('"').count() % 2, 0, "{}", tag.0);
            if let Some(ending) = tag.0.strip_prefix('/') {
                assert_eq!(open.pop(), Some(ending));
            } else if !tag.0.ends_with('/') {
                open.push(tag.name());
            }
        }
        assert_eq!(open, Vec::<&str>::new());
        assert!(!self.text.contains('&'));
        assert!(self
            .text
            .starts_with("<svg xmlns=\"http://www.w3.org/2000/svg\" "));
        assert!(self.text.ends_with("</svg>\n"));
    }
}

/// The tags in order. Panics where a bracket stands inside a tag or outside of
/// one.
fn tags(text: &str) -> Vec<Tag<'_>> {
    let mut rest = text;
    let mut tags = Vec::new();
    while let Some(start) = rest.find('<') {
        assert!(!rest[..start].contains('>'), "{rest}");
        let length = rest[start..].find('>').expect("a tag ends");
        let tag = &rest[start + 1..start + length];
        assert!(!tag.contains('<'), "{tag}");
        tags.push(Tag(tag));
        rest = &rest[start + length + 1..];
    }
    assert_eq!(rest.trim(), "");
    tags
}
