//! Hand-made SVG: a panel with its axes and grid, and the few shapes that are drawn in it.

use std::fmt::Write;

/// Sizes of text, in the picture's own units.
pub const TITLE: u32 = 34;
const TEXT: u32 = 22;
pub const SMALL: u32 = 19;

/// Colours: of Okabe and Ito's set, which colour-blind readers tell apart (the green darker, so that text in it
/// can be read), an indigo that is darker than all of them, and greys.
pub const BLUE: &str = "#0072B2";
pub const VERMILION: &str = "#D55E00";
pub const GREEN: &str = "#007A59";
pub const INDIGO: &str = "#332288";
pub const INK: &str = "#1F2933";
pub const GREY: &str = "#52606D";
pub const PALE_GREEN: &str = "#E8F4F0";
pub const PALE_VERMILION: &str = "#F8D5BD";
const GRID: &str = "#E1E5EA";

/// A rectangle of the picture with a scale each way. Values grow to the right and upwards.
pub struct Panel {
    pub left: f64,
    pub top: f64,
    pub width: f64,
    pub height: f64,
    pub x: (f64, f64),
    pub y: (f64, f64),
}

/// An SVG text's anchor: which part of it stands at its place.
#[derive(Clone, Copy)]
pub enum Anchor {
    Start,
    Middle,
    End,
}

impl Panel {
    pub fn at_x(&self, x: f64) -> f64 {
        self.left + (x - self.x.0) / (self.x.1 - self.x.0) * self.width
    }

    pub fn at_y(&self, y: f64) -> f64 {
        self.bottom() - (y - self.y.0) / (self.y.1 - self.y.0) * self.height
    }

    pub fn bottom(&self) -> f64 {
        self.top + self.height
    }

    /// Grid lines and their numbers, at each multiple of the steps; `numbers_below` puts those of x too.
    pub fn axes(&self, svg: &mut Svg, steps: (f64, f64), numbers_below: bool) {
        let (right, bottom) = (self.left + self.width, self.bottom());
        for x in multiples(self.x, steps.0) {
            svg.line((self.at_x(x), self.top), (self.at_x(x), bottom), GRID, "");
            if numbers_below {
                svg.text(
                    (self.at_x(x), bottom + 30.0),
                    Anchor::Middle,
                    GREY,
                    &format!("{x}"),
                );
            }
        }
        for y in multiples(self.y, steps.1) {
            svg.line((self.left, self.at_y(y)), (right, self.at_y(y)), GRID, "");
            svg.text(
                (self.left - 12.0, self.at_y(y) + 8.0),
                Anchor::End,
                GREY,
                &format!("{y}"),
            );
        }
        svg.line((self.left, bottom), (right, bottom), GREY, "");
        svg.line((self.left, self.top), (self.left, bottom), GREY, "");
    }

    /// The points of a curve, as the attribute `points` has them.
    pub fn points(&self, curve: impl Iterator<Item = (f64, f64)>) -> String {
        let place = |(x, y)| format!("{:.1},{:.1}", self.at_x(x), self.at_y(y));
        curve.map(place).collect::<Vec<_>>().join(" ")
    }
}

/// The multiples of `step` from the scale's low end to its high end.
fn multiples((low, high): (f64, f64), step: f64) -> impl Iterator<Item = f64> {
    let first = (low / step).ceil() as i64;
    let last = (high / step).floor() as i64;
    (first..=last).map(move |n| n as f64 * step)
}

/// The picture's text as it grows.
pub struct Svg(String);

impl Svg {
    pub fn new(width: u32, height: u32, title: &str) -> Svg {
        Svg(format!(
            "<svg xmlns=\"http://www.w3.org/2000/svg\" width=\"{width}\" height=\"{height}\" \
             viewBox=\"0 0 {width} {height}\" role=\"img\" \
             font-family=\"Helvetica, Arial, 'DejaVu Sans', sans-serif\" font-size=\"{TEXT}\">\n\
             <title>{}</title>\n<rect width=\"{width}\" height=\"{height}\" fill=\"#FFFFFF\"/>\n",
            escaped(title)
        ))
    }

    /// An element without content: its name and attributes.
    pub fn shape(&mut self, element: &str) {
        self.push(format_args!("<{element}/>"));
    }

    pub fn line(&mut self, from: (f64, f64), to: (f64, f64), colour: &str, more: &str) {
        self.push(format_args!(
            "<line x1=\"{:.1}\" y1=\"{:.1}\" x2=\"{:.1}\" y2=\"{:.1}\" stroke=\"{colour}\" {more}/>",
            from.0, from.1, to.0, to.1
        ));
    }

    /// A curve under a name of its own (the attribute `id`); `stroke` has its width and the like.
    pub fn curve(&mut self, id: &str, points: &str, colour: &str, stroke: &str) {
        self.push(format_args!(
            "<polyline id=\"{id}\" points=\"{points}\" fill=\"none\" stroke=\"{colour}\" {stroke} \
             stroke-linejoin=\"round\"/>"
        ));
    }

    pub fn text(&mut self, at: (f64, f64), anchor: Anchor, colour: &str, text: &str) {
        self.styled(at, anchor, colour, "", text);
    }

    /// Text with further attributes, such as its weight, its size or a turn.
    pub fn styled(&mut self, at: (f64, f64), anchor: Anchor, colour: &str, more: &str, text: &str) {
        let anchor = match anchor {
            Anchor::Start => "start",
            Anchor::Middle => "middle",
            Anchor::End => "end",
        };
        self.push(format_args!(
            "<text x=\"{:.1}\" y=\"{:.1}\" text-anchor=\"{anchor}\" fill=\"{colour}\" {more}>{}</text>",
            at.0,
            at.1,
            escaped(text)
        ));
    }

    pub fn end(mut self) -> String {
        self.0.push_str("</svg>\n");
        self.0
    }

    fn push(&mut self, element: std::fmt::Arguments) {
        writeln!(self.0, "{element}").expect("a string takes any text");
    }
}

/// The text with the characters that XML keeps for itself written out.
fn escaped(text: &str) -> String {
    text.replace('&', "&amp;")
        .replace('<', "&lt;")
        .replace('>', "&gt;")
}
