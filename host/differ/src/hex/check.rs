//! One text given to two readers, and all that they leave compared: with each other, with what the text was made to be, and
//! with what holds of every answer.

use super::make::Made;
use super::Reader;
use crate::case::BASE;
use sporhulma::Loaded;
use std::panic::{catch_unwind, AssertUnwindSafe};

/// So many bytes that differ are told.
const TOLD: usize = 8;

/// What one reader left. The buffers are used again for the next text.
#[derive(Default)]
pub struct Side {
    /// None if it panicked.
    pub answer: Option<Loaded>,
    pub memory: Vec<u8>,
}

impl Side {
    fn load(&mut self, reader: &impl Reader, memory: &[u8], text: &[u8]) {
        self.memory.clear();
        self.memory.extend_from_slice(memory);
        let load = || reader.load(&mut self.memory, text);
        self.answer = catch_unwind(AssertUnwindSafe(load)).ok();
    }

    pub fn answer_text(&self) -> String {
        match self.answer {
            None => "panicked".to_string(),
            Some(answer) => told(&answer),
        }
    }
}

fn told(answer: &Loaded) -> String {
    let start = match answer.start {
        Some(start) => format!("start address {start:#x}"),
        None => "no start address".to_string(),
    };
    match answer.refusal {
        0 => format!("loaded, line {}, {start}", answer.line),
        refusal => format!("refusal {refusal}, line {}, {start}", answer.line),
    }
}

#[derive(Default)]
pub struct Check {
    pub left: Side,
    pub right: Side,
    expected: Vec<u8>,
}

impl Check {
    /// Loads a text by both; gives what is wrong, a line each.
    pub fn check(&mut self, left: &impl Reader, right: &impl Reader, made: &Made) -> Vec<String> {
        self.left.load(left, &made.memory, &made.text);
        self.right.load(right, &made.memory, &made.text);
        let (left, right) = (&self.left, &self.right);
        let mut wrong = Vec::new();
        if left.answer.is_none() || left.answer != right.answer || left.memory != right.memory {
            wrong.push(format!("left:  {}", left.answer_text()));
            wrong.push(format!("right: {}", right.answer_text()));
            wrong.extend(bytes(["left", "right"], &left.memory, &right.memory));
        }
        for (name, side) in [("left", left), ("right", right)] {
            wrong.extend(impossible(name, side, &made.memory));
        }
        if let Some((answer, stores)) = &made.expected {
            self.expected.clone_from(&made.memory);
            for (place, data) in stores {
                self.expected[*place..][..data.len()].copy_from_slice(data);
            }
            // Where left and right differ, one of the two shows it.
            for (name, side) in [("left", left), ("right", right)] {
                wrong.extend(unexpected(name, side, answer, &self.expected));
            }
        }
        wrong
    }
}

/// What can't be, whatever the text: a refusal that changes memory or has a start address, or a line without refusal 6.
fn impossible(name: &str, side: &Side, before: &[u8]) -> Vec<String> {
    let Some(answer) = side.answer else {
        return vec![format!("{name} panicked")];
    };
    let mut wrong = Vec::new();
    if ![0, 2, 6].contains(&answer.refusal) || (answer.line != 0) != (answer.refusal == 6) {
        wrong.push(format!("{name} has no such answer: {}", told(&answer)));
    }
    if answer.refusal != 0 && answer.start.is_some() {
        wrong.push(format!(
            "{name} refused and gave a start address: {}",
            told(&answer)
        ));
    }
    if answer.refusal != 0 && side.memory != before {
        wrong.push(format!("{name} refused and changed memory:"));
        wrong.extend(bytes([name, "before"], &side.memory, before));
    }
    wrong
}

fn unexpected(name: &str, side: &Side, answer: &Loaded, memory: &[u8]) -> Vec<String> {
    let mut wrong = Vec::new();
    if side.answer != Some(*answer) {
        let (said, right) = (side.answer_text(), told(answer));
        wrong.push(format!("{name}: {said}; the text was made for: {right}"));
    } else if side.memory != memory {
        wrong.push(format!(
            "{name} left other bytes than the text was made for:"
        ));
        wrong.extend(bytes([name, "made for"], &side.memory, memory));
    }
    wrong
}

/// The first bytes in which two memories differ.
fn bytes(names: [&str; 2], one: &[u8], other: &[u8]) -> Vec<String> {
    let both = one.iter().zip(other).zip(BASE..);
    both.filter(|((one, other), _)| one != other)
        .take(TOLD)
        .map(|((one, other), address)| {
            format!(
                "byte {address:#x}: {} {one:#04x}, {} {other:#04x}",
                names[0], names[1]
            )
        })
        .collect()
}

#[cfg(test)]
mod tests {
    use super::*;
    use crate::hex::make::Sort;
    use crate::simulator::Second;

    /// Second, with something of its answer or of memory changed.
    struct Turned(fn(&mut Loaded, &mut [u8]));

    impl Reader for Turned {
        fn load(&self, memory: &mut [u8], text: &[u8]) -> Loaded {
            let mut answer = Second.load(memory, text);
            self.0(&mut answer, memory);
            answer
        }
    }

    /// A text for two pages of memory that nothing is expected of.
    fn made(text: &str) -> Made {
        Made {
            memory: vec![7; 8192],
            text: text.as_bytes().to_vec(),
            sort: Sort::Mutated,
            features: Vec::new(),
            lines: 0,
            expected: None,
        }
    }

    const GOOD: &str = ":0200000480007A\n:0100000009F6\n:040000058000000473\n:00000001FF\n";

    #[test]
    fn each_part_of_the_answer_and_the_ends_of_memory_are_compared() {
        let turns: [fn(&mut Loaded, &mut [u8]); 6] = [
            |answer, _| answer.refusal ^= 6,
            |answer, _| answer.line ^= 1 << 63,
            |answer, _| answer.start = answer.start.xor(Some(0)),
            |_, memory| memory[0] ^= 0x80,
            |_, memory| memory[8191] ^= 1,
            |_, _| panic!("as a reader does that indexes too far"),
        ];
        for text in [GOOD, ":00000001FF", ":00000001FE", ""] {
            let none = Check::default().check(&Turned(|_, _| {}), &Second, &made(text));
            assert_eq!(none, Vec::<String>::new());
            for turn in turns {
                assert!(!Check::default()
                    .check(&Turned(turn), &Second, &made(text))
                    .is_empty());
                assert!(!Check::default()
                    .check(&Second, &Turned(turn), &made(text))
                    .is_empty());
            }
        }
    }
}
