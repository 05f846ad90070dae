//! The calls of a program that patches itself: each is given to both simulators, whole and in two parts, and what the parts leave is held
//! against what the whole left.

use super::make::{make, Made};
use super::seen::Seen;
use crate::case::{Call, Case};
use crate::pair::{sides_that_differ, Pair};
use crate::simulator::Simulator;

/// The buffers of a program: used again for the next one.
pub struct Parts {
    pub made: Made,
    whole: Pair,
    parts: Pair,
    part: Case,
}

impl Default for Parts {
    fn default() -> Parts {
        Parts {
            made: Made::default(),
            whole: Pair::default(),
            parts: Pair::default(),
            part: Case::empty(),
        }
    }
}

impl Parts {
    /// All calls of program `number`; gives what is wrong after the first that is not as it should be, else nothing.
    pub fn check(
        &mut self,
        simulators: (&impl Simulator, &impl Simulator),
        seed: u64,
        number: u64,
        seen: &mut Seen,
    ) -> Vec<String> {
        make(seed, number, &mut self.made);
        seen.begin();
        while let Some(steps) = self.made.calls.pop() {
            let wrong = self.call(simulators, steps);
            if !wrong.is_empty() {
                return wrong;
            }
            if let Some(answer) = self.whole.left.answer {
                seen.note(&self.made.case, steps, &answer);
            }
            self.made.case.hart = self.whole.left.hart;
            std::mem::swap(&mut self.made.case.mem, &mut self.whole.left.mem);
        }
        seen.end();
        Vec::new()
    }

    /// One call, whole and in two parts; gives what is wrong. The case is then the call on which the simulators differ.
    fn call(
        &mut self,
        (left, right): (&impl Simulator, &impl Simulator),
        [first, second]: [u64; 2],
    ) -> Vec<String> {
        let case = &mut self.made.case;
        case.call = Call::Run(first + second);
        if !self.whole.agree(left, right, case) {
            return self.whole.differences();
        }
        self.part.hart = case.hart;
        self.part.mem.clone_from(&case.mem);
        self.part.map.clone_from(&case.map);
        let mut count = 0;
        for steps in [first, second] {
            self.part.call = Call::Run(steps);
            if !self.parts.agree(left, right, &self.part) {
                std::mem::swap(&mut self.made.case, &mut self.part);
                return self.parts.differences();
            }
            let answer = self.parts.left.answer.as_mut();
            let answer = answer.expect("where one panics they do not agree");
            answer.count += count;
            count = answer.count;
            if answer.trapped {
                break;
            }
            self.part.hart = self.parts.left.hart;
            self.part.mem.clone_from(&self.parts.left.mem);
        }
        self.parted(first, second)
    }

    /// What is wrong if the parts end in another way than the whole. Both simulators agree on each, so one speaks for both.
    fn parted(&self, first: u64, second: u64) -> Vec<String> {
        let (whole, parts) = (&self.whole.left, &self.parts.left);
        if whole.is_like(parts) {
            return Vec::new();
        }
        let title = format!(
            "a run of {} steps ends in another way than runs of {first} and of {second} (now left: the whole, right: the two):",
            first + second
        );
        let mut wrong = vec![title];
        wrong.extend(sides_that_differ(whole, parts));
        wrong
    }
}
