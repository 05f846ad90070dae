//! What is wrong with a line, and the name that was perhaps meant.

use std::fmt;

/// Where a line is wrong, what is wrong there and what would be right.
#[derive(Clone, Debug, PartialEq, Eq)]
pub struct Wrong {
    /// The column of the character where it is wrong, from 1.
    pub column: usize,
    pub what: String,
}

impl Wrong {
    pub(crate) fn at(column: usize, what: impl Into<String>) -> Wrong {
        Wrong {
            column,
            what: what.into(),
        }
    }
}

impl fmt::Display for Wrong {
    fn fmt(&self, f: &mut fmt::Formatter<'_>) -> fmt::Result {
        write!(f, "column {}: {}", self.column, self.what)
    }
}

/// A wrong line of a text.
#[derive(Clone, Debug, PartialEq, Eq)]
pub struct WrongLine {
    /// From 1.
    pub line: usize,
    pub wrong: Wrong,
}

impl fmt::Display for WrongLine {
    fn fmt(&self, f: &mut fmt::Formatter<'_>) -> fmt::Result {
        write!(f, "line {}, {}", self.line, self.wrong)
    }
}

/// The name that is nearest to what was written, if one is near enough to be meant.
pub fn nearest<'a>(written: &str, names: impl Iterator<Item = &'a str>) -> Option<&'a str> {
    let likeness = |name: &str| strsim::jaro(written, name);
    let near = names.max_by(|one, other| likeness(one).total_cmp(&likeness(other)))?;
    (likeness(near) > 0.8).then_some(near)
}

#[cfg(test)]
mod tests {
    use super::*;

    #[test]
    fn only_near_names_are_suggested() {
        let names = ["mtvec", "mepc", "medeleg"];
        assert_eq!(nearest("mtvce", names.into_iter()), Some("mtvec"));
        assert_eq!(nearest("cycle", names.into_iter()), None);
        assert_eq!(nearest("", names.into_iter()), None);
    }
}
