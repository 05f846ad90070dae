//! One case given to two simulators, and everything they leave compared.

use crate::case::{Case, BASE};
use crate::simulator::Simulator;
use sporhulma::{Answer, Hart, REST};
use std::panic::{catch_unwind, AssertUnwindSafe};

/// What one simulator left. The buffers are used again for the next case.
pub struct Side {
    /// None if it panicked.
    pub answer: Option<Answer>,
    pub hart: Hart,
    pub mem: Vec<u8>,
}

pub struct Pair {
    pub left: Side,
    pub right: Side,
}

impl Side {
    fn new() -> Side {
        Side {
            answer: None,
            hart: Hart::fresh(),
            mem: Vec::new(),
        }
    }

    fn run(&mut self, simulator: &impl Simulator, case: &Case) {
        self.hart = case.hart;
        self.mem.clear();
        self.mem.extend_from_slice(&case.mem);
        let call = || simulator.call(case.call, &mut self.hart, &mut self.mem, &case.map);
        self.answer = catch_unwind(AssertUnwindSafe(call)).ok();
    }

    /// Whether it has answered, and the same as the other, and left the same.
    pub fn is_like(&self, other: &Side) -> bool {
        self.answer.is_some()
            && self.answer == other.answer
            && self.hart == other.hart
            && self.mem == other.mem
    }

    pub fn answer_text(&self) -> String {
        match self.answer {
            None => "panicked".to_string(),
            Some(answer) if answer.refusal != 0 => format!("refusal {}", answer.refusal),
            Some(answer) if answer.trapped => {
                format!("count {}, trapped, cause {}", answer.count, answer.cause)
            }
            Some(answer) => format!("count {}, no trap, cause {}", answer.count, answer.cause),
        }
    }
}

impl Default for Pair {
    fn default() -> Pair {
        Pair {
            left: Side::new(),
            right: Side::new(),
        }
    }
}

impl Pair {
    /// Runs the case on both; true if they agree in everything.
    pub fn agree(&mut self, left: &impl Simulator, right: &impl Simulator, case: &Case) -> bool {
        self.left.run(left, case);
        self.right.run(right, case);
        self.left.is_like(&self.right)
    }

    /// What each gave, and the words and bytes that differ, a line each.
    pub fn differences(&self) -> Vec<String> {
        sides_that_differ(&self.left, &self.right)
    }
}

/// What each side gave, and the words and bytes that differ, a line each.
pub fn sides_that_differ(left: &Side, right: &Side) -> Vec<String> {
    let mut lines = vec![
        format!("left:  {}", left.answer_text()),
        format!("right: {}", right.answer_text()),
    ];
    lines.extend(words_that_differ(&left.hart, &right.hart));
    for (at, (one, other)) in left.mem.iter().zip(&right.mem).enumerate() {
        if one != other {
            let address = BASE + at as u64;
            lines.push(format!(
                "byte {address:#x}: left {one:#04x}, right {other:#04x}"
            ));
        }
    }
    lines
}

/// The words of two harts that differ, a line each.
pub fn words_that_differ(left: &Hart, right: &Hart) -> Vec<String> {
    let names = (0..32)
        .map(|n| format!("x{n}"))
        .chain(REST.iter().map(|name| name.to_string()));
    let words = |hart: &Hart| hart.x.into_iter().chain(hart.rest).collect::<Vec<u64>>();
    let all = names.zip(words(left)).zip(words(right));
    all.filter(|((_, one), other)| one != other)
        .map(|((name, one), other)| format!("{name}: left {one:#x}, right {other:#x}"))
        .collect()
}

#[cfg(test)]
mod tests {
    use super::*;
    use crate::case::Call;
    use crate::simulator::Second;

    /// Second, with one bit of what it leaves turned.
    enum Turned {
        Word(usize, u32),
        Byte(usize, u32),
        Refusal,
        Count,
        Trapped,
        Cause,
    }

    impl Simulator for Turned {
        fn call(&self, call: Call, hart: &mut Hart, mem: &mut [u8], map: &[u64]) -> Answer {
            let mut answer = Second.call(call, hart, mem, map);
            match *self {
                Turned::Word(word, bit) if word < 32 => hart.x[word] ^= 1 << bit,
                Turned::Word(word, bit) => hart.rest[word - 32] ^= 1 << bit,
                Turned::Byte(at, bit) => mem[at] ^= 1 << bit,
                Turned::Refusal => answer.refusal ^= 1,
                Turned::Count => answer.count ^= 1,
                Turned::Trapped => answer.trapped = !answer.trapped,
                Turned::Cause => answer.cause ^= 1,
            }
            answer
        }
    }

    fn case(call: Call) -> Case {
        let mut case = Case::empty();
        case.fill(4096, 0x13, 0x100_0000_0000);
        case.call = call;
        case
    }

    fn noticed(turned: Turned) -> usize {
        let mut pair = Pair::default();
        assert!(pair.agree(&Second, &Second, &case(Call::StepWord(0x13))));
        assert_eq!(pair.differences().len(), 2);
        assert!(!pair.agree(&Second, &turned, &case(Call::StepWord(0x13))));
        pair.differences().len()
    }

    #[test]
    fn a_turned_bit_of_each_word_is_noticed_and_named_alone() {
        for word in 0..52 {
            for bit in [0, 31, 63] {
                assert_eq!(noticed(Turned::Word(word, bit)), 3);
            }
        }
    }

    #[test]
    fn a_turned_bit_of_a_byte_is_noticed_and_named_alone() {
        for at in [0, 1, 2047, 4095] {
            for bit in 0..8 {
                assert_eq!(noticed(Turned::Byte(at, bit)), 3);
            }
        }
    }

    #[test]
    fn each_part_of_the_answer_is_noticed() {
        for turned in [
            Turned::Refusal,
            Turned::Count,
            Turned::Trapped,
            Turned::Cause,
        ] {
            assert_eq!(noticed(turned), 2);
        }
    }

    /// A simulator that panics is a difference too, whichever side it is on.
    struct Panics;

    impl Simulator for Panics {
        fn call(&self, _: Call, _: &mut Hart, _: &mut [u8], _: &[u64]) -> Answer {
            panic!("planted")
        }
    }

    #[test]
    fn a_panic_is_noticed() {
        let mut pair = Pair::default();
        assert!(!pair.agree(&Panics, &Second, &case(Call::Step)));
        assert!(!pair.agree(&Panics, &Panics, &case(Call::Step)));
        assert!(pair.differences()[0].contains("panicked"));
    }
}
