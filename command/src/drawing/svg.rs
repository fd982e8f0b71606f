//! A page written as SVG.

use super::page::{Part, Pen, Place, Shape, DOT, HEIGHT, WIDTH};
use super::text::{Anchor, Text};

const UNITS_IN_AN_INCH: f64 = 72.0;

pub fn written(page: &[Part]) -> String {
    let (wide, high) = (WIDTH / UNITS_IN_AN_INCH, HEIGHT / UNITS_IN_AN_INCH);
    let parts: String = page.iter().map(part).collect();
    format!(
        "<svg xmlns=\"http://www.w3.org/2000/svg\" width=\"{wide}in\" height=\"{high}in\" \
         viewBox=\"0 0 {WIDTH} {HEIGHT}\" font-family=\"monospace\" fill=\"black\">\n\
         <rect width=\"{WIDTH}\" height=\"{HEIGHT}\" fill=\"white\"/>\n\
         {parts}</svg>\n"
    )
}

fn part(part: &Part) -> String {
    let shapes: String = part.shapes.iter().map(shape).collect();
    format!("<g id=\"{}\">\n{shapes}</g>\n", part.name)
}

fn shape(shape: &Shape) -> String {
    match shape {
        Shape::Line { from, to, pen } => format!(
            "<line x1=\"{:.2}\" y1=\"{:.2}\" x2=\"{:.2}\" y2=\"{:.2}\" {}/>\n",
            from.x,
            from.y,
            to.x,
            to.y,
            stroke(*pen)
        ),
        Shape::Circle {
            center: Place { x, y },
            radius,
            pen,
        } => format!(
            "<circle cx=\"{x:.2}\" cy=\"{y:.2}\" r=\"{radius:.2}\" {} {}/>\n",
            fill(*pen),
            stroke(*pen)
        ),
        Shape::Rectangle {
            corner: Place { x, y },
            wide,
            high,
            pen,
        } => format!(
            "<rect x=\"{x:.2}\" y=\"{y:.2}\" width=\"{wide:.2}\" height=\"{high:.2}\" {} {}/>\n",
            fill(*pen),
            stroke(*pen)
        ),
        Shape::Dot(Place { x, y }) => {
            format!("<circle cx=\"{x:.2}\" cy=\"{y:.2}\" r=\"{DOT}\"/>\n")
        }
        Shape::Text(written) => text(written),
    }
}

fn fill(pen: Pen) -> &'static str {
    match pen {
        Pen::Port => "fill=\"white\"",
        _ => "fill=\"none\"",
    }
}

fn stroke(pen: Pen) -> String {
    let color = match pen {
        Pen::Wall => "silver",
        Pen::Diameter | Pen::Border | Pen::Leader => "gray",
        Pen::Inside | Pen::Zero | Pen::Port | Pen::Tick | Pen::Size => "black",
    };
    let dashes = match pen {
        Pen::Border => " stroke-dasharray=\"4 3\"",
        _ => "",
    };
    let width = pen.width();
    format!("stroke=\"{color}\" stroke-width=\"{width}\"{dashes}")
}

/// The words hold none of the characters that would have to be written
/// otherwise in SVG.
fn text(text: &Text) -> String {
    let Place { x, y } = text.base;
    let anchor = match text.anchor {
        Anchor::Start => "start",
        Anchor::Middle => "middle",
        Anchor::End => "end",
    };
    let weight = if text.bold {
        " font-weight=\"bold\""
    } else {
        ""
    };
    let turn = if text.turned {
        format!(" transform=\"rotate(-90 {x:.2} {y:.2})\"")
    } else {
        String::new()
    };
    let (size, words) = (text.size, &text.words);
    format!(
        "<text x=\"{x:.2}\" y=\"{y:.2}\" font-size=\"{size}\"{weight} \
         text-anchor=\"{anchor}\"{turn}>{words}</text>\n"
    )
}
