//! What ends the desk before its work is done, as one line and an exit status.

use std::io;

/// Why a command could not do its work.
#[derive(Debug)]
pub enum Failure {
    /// What the user gave is wrong: the place, what is wrong and what would be right.
    Input(String),
    /// The desk itself could not go on, for instance since a disk is full.
    Tool(String),
    /// Whoever read the output has closed it: nothing is left to say.
    Closed,
}

impl Failure {
    /// A line about wrong input that begins with its place.
    pub fn at(place: &str, wrong: impl AsRef<str>) -> Failure {
        let place = if place.is_empty() { "''" } else { place };
        Failure::Input(format!("{place}: {}", wrong.as_ref()))
    }

    /// The exit status that docs/DESK.md gives for this.
    pub fn status(&self) -> u8 {
        match self {
            Failure::Input(_) => 2,
            Failure::Tool(_) | Failure::Closed => 1,
        }
    }

    /// The line for stderr, if there is one. What the user gave may hold line ends and worse: these are shown as escapes.
    pub fn line(&self) -> Option<String> {
        match self {
            Failure::Input(line) | Failure::Tool(line) => Some(line.chars().map(shown).collect()),
            Failure::Closed => None,
        }
    }
}

/// A character as it can stand in a line.
fn shown(character: char) -> String {
    match character {
        '\'' | '"' | '\\' => character.into(),
        _ => character.escape_debug().collect(),
    }
}

/// Errors of writing: reading turns its errors into `Input` where it knows the file's name.
impl From<io::Error> for Failure {
    fn from(error: io::Error) -> Failure {
        match error.kind() {
            io::ErrorKind::BrokenPipe => Failure::Closed,
            _ => Failure::Tool(format!("the output could not be written: {error}")),
        }
    }
}

#[cfg(test)]
mod tests {
    use super::*;

    #[test]
    fn a_line_is_one_line_and_names_its_place() {
        let line = |place| Failure::at(place, "it isn't \"so\"").line().unwrap();
        assert_eq!(line("a\\b \u{e4}"), "a\\b \u{e4}: it isn't \"so\"");
        assert_eq!(
            line("a\nb\u{1b}\u{feff}\0"),
            "a\\nb\\u{1b}\\u{feff}\\0: it isn't \"so\""
        );
        assert_eq!(line(""), "'': it isn't \"so\"");
    }
}
