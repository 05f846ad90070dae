//! A line cut into its pieces, each with the column where it begins: a name, and operands between commas.

/// A piece of a line, without blanks around it.
#[derive(Clone, Copy, Debug, PartialEq, Eq)]
pub struct Piece<'a> {
    pub text: &'a str,
    /// The column of its first character, from 1.
    pub column: usize,
}

impl<'a> Piece<'a> {
    /// A line up to its comment.
    pub fn line(line: &'a str) -> Piece<'a> {
        let text = line.split('#').next().unwrap_or(line);
        Piece { text, column: 1 }.trimmed()
    }

    fn trimmed(self) -> Piece<'a> {
        let start = self.text.trim_start();
        let blanks = self.text.len() - start.len();
        let begins = self.text[..blanks].chars().count();
        Piece {
            text: start.trim_end(),
            column: self.column + begins,
        }
    }

    /// What stands before and behind a byte where a character begins.
    pub fn split_at(self, byte: usize) -> (Piece<'a>, Piece<'a>) {
        let (before, behind) = self.text.split_at(byte);
        let column = self.column + before.chars().count();
        let behind = Piece {
            text: behind,
            column,
        };
        let before = Piece {
            text: before,
            ..self
        };
        (before.trimmed(), behind.trimmed())
    }

    /// The first word and what follows it.
    pub fn first(self) -> (Piece<'a>, Piece<'a>) {
        let end = self.text.find(char::is_whitespace);
        self.split_at(end.unwrap_or(self.text.len()))
    }

    /// The operands between commas; none where there is no text.
    pub fn operands(self) -> Vec<Piece<'a>> {
        let mut operands = Vec::new();
        let mut rest = self;
        while let Some(comma) = rest.text.find(',') {
            let (before, behind) = rest.split_at(comma);
            operands.push(before);
            rest = behind.without_first();
        }
        if !rest.text.is_empty() || !operands.is_empty() {
            operands.push(rest);
        }
        operands
    }

    /// Without its first character, which is one byte long.
    pub fn without_first(self) -> Piece<'a> {
        self.split_at(1).1
    }
}

#[cfg(test)]
mod tests {
    use super::*;

    fn pieces(line: &str) -> Vec<(&str, usize)> {
        let (name, rest) = Piece::line(line).first();
        let operands = rest.operands().into_iter();
        let all = std::iter::once(name).chain(operands);
        all.map(|piece| (piece.text, piece.column)).collect()
    }

    #[test]
    fn columns_are_those_of_the_line() {
        let line = "\t addi  a0 ,a1,\u{a0}-1 # one less";
        assert_eq!(
            pieces(line),
            [("addi", 3), ("a0", 9), ("a1", 13), ("-1", 17)]
        );
        assert_eq!(pieces("ä,ö x"), [("ä,ö", 1), ("x", 5)]);
    }

    #[test]
    fn an_operand_that_lacks_is_an_empty_one() {
        assert_eq!(
            pieces("add a0,,"),
            [("add", 1), ("a0", 5), ("", 8), ("", 9)]
        );
        assert_eq!(pieces("ret"), [("ret", 1)]);
        assert_eq!(pieces("  # nothing"), [("", 3)]);
    }
}
