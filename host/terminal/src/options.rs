//! A command line of words, and of options that a number follows: `qemu --seed 7`. What is wrong with it each program says in words of its
//! own.

use formats::number::unsigned;

#[derive(Clone, Copy, PartialEq, Eq, Debug)]
pub enum Item<'a> {
    /// What is none of the options.
    Word(&'a str),
    /// The option's place among the names, and its number.
    Number(usize, u64),
    /// An option at the end of the line.
    Alone(&'a str),
    /// An option, and what follows it.
    NoNumber(&'a str, &'a str),
}

/// What stands on a line, in order; `names` are the options.
pub fn items<'a>(line: &[&'a str], names: &[&str]) -> Vec<Item<'a>> {
    let mut rest = line.iter();
    let mut items = Vec::new();
    while let Some(word) = rest.next() {
        let Some(at) = names.iter().position(|name| name == word) else {
            items.push(Item::Word(word));
            continue;
        };
        items.push(match rest.next() {
            None => Item::Alone(word),
            Some(text) => match unsigned(text) {
                Ok(number) => Item::Number(at, number),
                Err(_) => Item::NoNumber(word, text),
            },
        });
    }
    items
}

#[cfg(test)]
mod tests {
    use super::*;

    #[test]
    fn a_line_is_read_in_order() {
        let names = ["--seed", "--count"];
        let line = ["qemu", "--count", "0x10", "--seed", "--count", "--seed"];
        let read = [
            Item::Word("qemu"),
            Item::Number(1, 16),
            Item::NoNumber("--seed", "--count"),
            Item::Alone("--seed"),
        ];
        assert_eq!(items(&line, &names), read);
        assert_eq!(items(&["--steps"], &names), [Item::Word("--steps")]);
        assert_eq!(items(&[], &names), []);
    }
}
