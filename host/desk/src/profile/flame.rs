//! A profile as a picture: a box for each way of calls, as wide as its steps with those of what it called, upon the box of its caller.

use super::table::{percent, CUT};
use super::tree::{Node, ROOT};
use super::Counts;
use std::path::Path;

/// Sizes in the picture's own units.
const WIDTH: f64 = 1200.0;
const MARGIN: f64 = 20.0;
const ROW: f64 = 20.0;
/// Where the boxes begin, below the title.
const TOP: f64 = 84.0;
/// The width of a letter of the boxes' labels.
const LETTER: f64 = 7.3;
/// The least width that can be seen.
const LEAST: f64 = 0.5;
/// The most boxes upon each other, so that a deep recursion leaves a picture that can be looked at.
const LEVELS: usize = 80;

/// Pale colours on which dark text can be read; a function has the same in all its boxes.
const COLOURS: [&str; 8] = [
    "#F8D5BD", "#D3E5F2", "#F6E3A8", "#D5EBDD", "#E4DCF1", "#F3D3DE", "#DCE8C3", "#CFE6E8",
];
/// Of code that has no symbol.
const UNNAMED: &str = "#E1E5EA";
const INK: &str = "#1F2933";
const GREY: &str = "#52606D";

/// A box: how far from the bottom, where from the left, and how wide.
struct Tile {
    node: Node,
    level: usize,
    left: f64,
    width: f64,
}

/// What is not drawn.
#[derive(Default)]
struct Left {
    /// Steps in boxes that are too narrow.
    narrow: u64,
    /// Steps in boxes that stand too high.
    high: u64,
}

/// The picture of what was counted in a run of `image`.
pub fn draw(counts: &Counts, image: &str) -> String {
    let totals = counts.tree.totals();
    let (tiles, left) = tiles(counts, &totals);
    let levels = tiles.iter().map(|tile| tile.level + 1).max().unwrap_or(0);
    let bottom = TOP + levels as f64 * ROW;
    let file = Path::new(image).file_name();
    let file = file.map_or(image.into(), |file| file.to_string_lossy());
    let notes = left.told(counts);
    let mut svg = head(&file, bottom + 30.0 + notes.len() as f64 * ROW);
    let plain = format!("fill=\"{GREY}\"");
    let about = "A box is a function, as wide as its steps with those of what it called; it stands on its caller.";
    svg += &line(62.0, &plain, &format!("{}. {about}", counts.headline()));
    for (note, row) in notes.iter().zip(1..) {
        svg += &line(bottom + 6.0 + ROW * f64::from(row), &plain, note);
    }
    let labels = counts.functions.labels();
    for tile in &tiles {
        svg += &shape(counts, &labels, tile, (totals[tile.node], bottom));
    }
    svg + "</svg>\n"
}

/// The start of the picture, and its title.
fn head(file: &str, height: f64) -> String {
    let title = format!("Where the steps of {file} were made");
    let bold = format!("fill=\"{INK}\" font-size=\"22\" font-weight=\"bold\"");
    format!(
        "<svg xmlns=\"http://www.w3.org/2000/svg\" width=\"{WIDTH}\" height=\"{height}\" viewBox=\"0 0 {WIDTH} {height}\" role=\"img\" font-family=\"Helvetica, Arial, 'DejaVu Sans', sans-serif\" font-size=\"14\">\n<title>{}</title>\n<rect width=\"{WIDTH}\" height=\"{height}\" fill=\"#FFFFFF\"/>\n",
        escaped(&title)
    ) + &line(36.0, &bold, &title)
}

fn line(y: f64, style: &str, text: &str) -> String {
    let text = escaped(text);
    format!("<text x=\"{MARGIN}\" y=\"{y}\" {style}>{text}</text>\n")
}

impl Left {
    fn told(&self, counts: &Counts) -> Vec<String> {
        let mut told = Vec::new();
        let part = |steps: u64| percent(steps, counts.steps);
        if self.narrow > 0 {
            told.push(format!(
                "{} of the steps are in boxes too narrow to draw.",
                part(self.narrow)
            ));
        }
        if self.high > 0 {
            told.push(format!(
                "Calls more than {LEVELS} deep are not drawn ({}).",
                part(self.high)
            ));
        }
        if counts.tree.cut {
            told.push(CUT.into());
        }
        told
    }
}

/// The boxes that are drawn, and what is in the others.
fn tiles(counts: &Counts, totals: &[u64]) -> (Vec<Tile>, Left) {
    let called = counts.tree.called(totals);
    let scale = (WIDTH - 2.0 * MARGIN) / counts.steps.max(1) as f64;
    let (mut tiles, mut out) = (Vec::new(), Left::default());
    // What is called by a box that is drawn, with where it begins and how high it stands.
    let mut open = vec![(ROOT, MARGIN, 0)];
    while let Some((caller, mut left, level)) = open.pop() {
        for &node in &called[caller] {
            let width = totals[node] as f64 * scale;
            if level == LEVELS {
                out.high += totals[node];
                continue;
            } else if width < LEAST {
                out.narrow += totals[node];
                continue;
            }
            open.push((node, left, level + 1));
            tiles.push(Tile {
                node,
                level,
                left,
                width,
            });
            left += width;
        }
    }
    (tiles, out)
}

/// A box with its label as far as that fits, and all of it where one points at it.
fn shape(counts: &Counts, labels: &[String], tile: &Tile, (all, bottom): (u64, f64)) -> String {
    let Some(function) = counts.tree.function(tile.node) else {
        return String::new();
    };
    let (label, own) = (&labels[function], counts.tree.own(tile.node));
    let share = percent(all, counts.steps);
    let colour = match counts.functions.is_named(function) {
        true => COLOURS[function % COLOURS.len()],
        false => UNNAMED,
    };
    let (x, y) = (tile.left, bottom - (tile.level + 1) as f64 * ROW);
    let told = escaped(&format!(
        "{label}: {all} steps ({share}), {own} of them its own"
    ));
    let text = match fitting(&format!("{label} {share}"), label, tile.width) {
        Some(text) => format!(
            "<text x=\"{:.1}\" y=\"{:.1}\" fill=\"{INK}\" font-family=\"'DejaVu Sans Mono', Menlo, Consolas, monospace\" font-size=\"12\">{}</text>",
            x + 4.0,
            y + 14.5,
            escaped(&text)
        ),
        None => String::new(),
    };
    format!(
        "<g><title>{told}</title><rect x=\"{x:.2}\" y=\"{y:.1}\" width=\"{:.2}\" height=\"{ROW}\" fill=\"{colour}\" stroke=\"#FFFFFF\"/>{text}</g>\n",
        tile.width
    )
}

/// The longest of these that fits into a box, or the start of the label.
fn fitting(long: &str, label: &str, width: f64) -> Option<String> {
    let room = ((width - 8.0) / LETTER) as usize;
    let length = |text: &str| text.chars().count();
    if length(long) <= room {
        Some(long.into())
    } else if length(label) <= room {
        Some(label.into())
    } else if room >= 4 {
        let start: String = label.chars().take(room - 2).collect();
        Some(start + "..")
    } else {
        None
    }
}

/// Text as XML has it.
fn escaped(text: &str) -> String {
    let mut escaped = String::new();
    for letter in text.chars() {
        match letter {
            '&' => escaped += "&amp;",
            '<' => escaped += "&lt;",
            '>' => escaped += "&gt;",
            // XML has no other control letters.
            letter if letter < ' ' => escaped.push(' '),
            letter => escaped.push(letter),
        }
    }
    escaped
}
