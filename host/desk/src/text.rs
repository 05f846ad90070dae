//! Lines of text: at most 100 columns, and what goes on is set in.

use crate::explain::Rows;

const COLUMNS: usize = 100;

/// `head` and then the words; words that do not fit go on in lines that begin with `indent` spaces.
pub fn wrapped(
    head: &str,
    words: impl IntoIterator<Item = impl AsRef<str>>,
    indent: usize,
) -> String {
    let mut text = head.to_string();
    let mut column = head.chars().count();
    // Whether something stands in the line from which the next word is to be set apart.
    let mut begun = column > indent;
    for word in words {
        let word = word.as_ref();
        let width = word.chars().count();
        if column + 1 + width > COLUMNS && begun {
            text += &format!("\n{:indent$}", "");
            column = indent;
        } else if begun {
            text.push(' ');
            column += 1;
        }
        text += word;
        column += width;
        begun = true;
    }
    text + "\n"
}

/// Rows of a report, their labels in a column.
pub fn rows(rows: &Rows) -> String {
    let row = |(label, text): &(&str, String)| {
        let head = format!("  {label:<8}  ");
        wrapped(&head, text.split(' '), head.len())
    };
    rows.iter().map(row).collect()
}

#[cfg(test)]
mod tests {
    use super::*;

    #[test]
    fn long_lines_go_on_set_in() {
        let long = "word ".repeat(40);
        let text = wrapped("head: ", long.split_whitespace(), 6);
        assert!(text.lines().all(|line| line.len() <= COLUMNS));
        assert!(text
            .lines()
            .skip(1)
            .all(|line| line.starts_with("      word")));
        assert_eq!(text.split_whitespace().count(), 41);
    }

    /// Also behind words that are no longer than the lines below are set in.
    #[test]
    fn words_are_set_apart() {
        assert_eq!(wrapped("", "a b c".split(' '), 4), "a b c\n");
        assert_eq!(wrapped("  head: ", "a b".split(' '), 8), "  head: a b\n");
        assert_eq!(
            wrapped("a long head", "a b".split(' '), 4),
            "a long head a b\n"
        );
    }
}
