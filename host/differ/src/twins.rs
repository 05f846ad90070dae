//! Rules 13.10 to 13.15 on two simulators: each carries out the calls of a pair on both memories, and what one of them leaves of
//! the two is compared. Beside that the simulators are compared with each other, as everywhere.

use crate::case::{Call, BASE, PAGE};
use crate::hidden::{make, Made};
use crate::pair::{words_that_differ, Pair, Side};
use crate::seen::Seen;
use crate::simulator::Simulator;

/// The buffers of a pair: used again for the next one.
#[derive(Default)]
pub struct Twins {
    pub made: Made,
    /// What both simulators left of the first memory, and of the other one.
    left: [Pair; 2],
}

impl Twins {
    /// All calls of pair `number`; gives what is wrong after the first that is not as it should be, else nothing.
    pub fn check(
        &mut self,
        simulators: (&impl Simulator, &impl Simulator),
        seed: u64,
        number: u64,
        seen: &mut Seen,
    ) -> Vec<String> {
        make(seed, number, &mut self.made);
        seen.begin(&self.made);
        loop {
            let wrong = self.call(simulators);
            let answer = self.left[0].left.answer;
            if let (true, Some(answer)) = (wrong.is_empty(), answer) {
                seen.note(&self.made.cases[0], &answer);
            }
            let over = answer.is_none_or(|answer| answer.trapped || answer.refusal != 0);
            match self.made.more.pop() {
                Some(call) if wrong.is_empty() && !over => self.go_on(call),
                _ => {
                    seen.end();
                    return wrong;
                }
            }
        }
    }

    /// One call on both memories by both simulators; gives what is wrong.
    fn call(&mut self, (left, right): (&impl Simulator, &impl Simulator)) -> Vec<String> {
        let mut wrong = Vec::new();
        for (at, name) in [(0, "the first memory"), (1, "the other memory")] {
            if !self.left[at].agree(left, right, &self.made.cases[at]) {
                wrong.push(format!("the two simulators on {name}:"));
                wrong.extend(self.left[at].differences());
            }
        }
        let before = [&self.made.cases[0].mem[..], &self.made.cases[1].mem[..]];
        let [one, other] = &self.left;
        for (name, sides) in [
            ("left", [&one.left, &other.left]),
            ("right", [&one.right, &other.right]),
        ] {
            let leaks = leaks(before, sides, &self.made.named);
            if !leaks.is_empty() {
                wrong.push(format!(
                    "a user's program sees more than its own frames, simulator {name} (now left: first memory, right: other):"
                ));
                wrong.extend(leaks);
            }
        }
        wrong
    }

    /// The next call of a row starts from what this one left.
    fn go_on(&mut self, call: Call) {
        for (case, pair) in self.made.cases.iter_mut().zip(&mut self.left) {
            case.call = call;
            case.hart = pair.left.hart;
            std::mem::swap(&mut case.mem, &mut pair.left.mem);
        }
    }
}

/// What breaks rules 13.10 to 13.15, a line each: `before` are the two memories, `after` what one simulator left of each.
pub fn leaks(before: [&[u8]; 2], after: [&Side; 2], named: &[bool]) -> Vec<String> {
    let [one, other] = after;
    let mut lines = Vec::new();
    if one.answer.is_none() || one.answer != other.answer {
        let texts = [one.answer_text(), other.answer_text()];
        lines.push(format!("answer: left {}, right {}", texts[0], texts[1]));
    }
    if one.hart != other.hart {
        lines.extend(words_that_differ(&one.hart, &other.hart));
    }
    for (at, named) in named.iter().enumerate() {
        if *named {
            lines.extend(changed("left and right differ", at, &one.mem, &other.mem));
        } else {
            lines.extend(changed("changed in left", at, before[0], &one.mem));
            lines.extend(changed("changed in right", at, before[1], &other.mem));
        }
    }
    lines
}

/// A line for the first byte in which two memories differ in frame `at`.
fn changed(what: &str, at: usize, one: &[u8], other: &[u8]) -> Option<String> {
    let start = at * PAGE as usize;
    let [one, other] = [one, other].map(|mem| &mem[start..mem.len().min(start + PAGE as usize)]);
    if one == other {
        return None;
    }
    let byte = one
        .iter()
        .zip(other)
        .position(|(one, other)| one != other)?;
    let address = BASE + (start + byte) as u64;
    let (one, other) = (one[byte], other[byte]);
    Some(format!(
        "byte {address:#x}, {what}: {one:#04x}, {other:#04x}"
    ))
}

#[cfg(test)]
mod tests {
    use super::*;
    use crate::case::Case;
    use crate::simulator::Second;
    use sporhulma::Hart;

    const FRAME: usize = PAGE as usize;

    /// Two memories of two frames, of which the first is the user's, and a step by each.
    fn pair() -> ([Vec<u8>; 2], [Side; 2]) {
        let step = |hidden: u8| {
            let mut case = Case::empty();
            case.mem = [[7; FRAME], [hidden; FRAME]].concat();
            case.call = Call::StepWord(0x13);
            let mut pair = Pair::default();
            assert!(pair.agree(&Second, &Second, &case));
            (case.mem, pair.left)
        };
        let [one, other] = [1, 2].map(step);
        ([one.0, other.0], [one.1, other.1])
    }

    /// The lines after something has been doctored in what was left.
    fn found(doctor: impl Fn(&mut [Side; 2])) -> Vec<String> {
        let (before, mut after) = pair();
        doctor(&mut after);
        let [one, other] = &after;
        leaks([&before[0], &before[1]], [one, other], &[true, false])
    }

    fn word_of(hart: &mut Hart, word: usize) -> &mut u64 {
        match word {
            0..32 => &mut hart.x[word],
            _ => &mut hart.rest[word - 32],
        }
    }

    #[test]
    fn nothing_doctored_nothing_found() {
        assert_eq!(found(|_| {}), Vec::<String>::new());
    }

    #[test]
    fn each_word_of_the_hart_is_compared() {
        for word in 0..52 {
            for side in [0, 1] {
                let lines = found(|after| *word_of(&mut after[side].hart, word) ^= 1 << 63);
                assert_eq!(lines.len(), 1);
            }
        }
    }

    #[test]
    fn each_part_of_the_answer_is_compared() {
        for part in 0..5 {
            let lines = found(|after| {
                let answer = after[1].answer.as_mut().expect("it was taken");
                match part {
                    0 => answer.refusal = 1,
                    1 => answer.count ^= 1,
                    2 => answer.trapped = true,
                    3 => answer.cause = 2,
                    _ => after[1].answer = None,
                }
            });
            assert_eq!(lines.len(), 1);
            assert!(lines[0].starts_with("answer: "));
        }
        let both = found(|after| after.iter_mut().for_each(|side| side.answer = None));
        assert_eq!(both.len(), 1);
    }

    #[test]
    fn a_byte_of_a_named_frame_is_compared_between_the_two() {
        for at in [0, 1, FRAME - 1] {
            for side in [0, 1] {
                let lines = found(|after| after[side].mem[at] ^= 0x80);
                assert_eq!(lines.len(), 1);
                assert!(lines[0].contains("left and right differ"));
            }
            // A store of the user's own: it may change both alike.
            assert!(found(|after| after.iter_mut().for_each(|side| side.mem[at] = 9)).is_empty());
        }
    }

    #[test]
    fn a_byte_of_another_frame_keeps_its_own_value() {
        for at in [FRAME, FRAME + 1, 2 * FRAME - 1] {
            for (side, name) in [(0, "changed in left"), (1, "changed in right")] {
                let lines = found(|after| after[side].mem[at] ^= 1);
                assert_eq!(lines.len(), 1);
                assert!(lines[0].contains(name));
            }
            let both = found(|after| after.iter_mut().for_each(|side| side.mem[at] = 9));
            assert_eq!(both.len(), 2);
        }
        let swapped = found(|after| {
            let [one, other] = after;
            std::mem::swap(&mut one.mem, &mut other.mem);
        });
        assert_eq!(swapped.len(), 2);
    }
}
