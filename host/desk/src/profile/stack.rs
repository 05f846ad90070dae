//! The stack of calls, followed by the words that the hart runs: a link register written is a call, a jump by one a return.
//!
//! These are the manual's hints for a return-address stack (x1 and x5 are link registers). A return counts as one only where a
//! call waits for it at that address: then what lies above that call is over, by tail calls or a longjmp. Any other is a jump.

use super::functions::Id;
use super::tree::{Node, Tree, ROOT};
use std::collections::HashMap;

/// Calls that the stack holds at most; those beyond count as jumps.
const MOST_CALLS: usize = 100_000;

const MRET: u32 = 0x3020_0073;
const SRET: u32 = 0x1020_0073;

/// What a step is to the stack.
#[derive(Clone, Copy, Debug, PartialEq)]
pub enum Move {
    Jump,
    Call,
    Return,
    /// To where a call waits, and from there a call: the other half of a coroutine.
    Swap,
    Trap,
    TrapReturn,
}

impl Move {
    pub fn of(word: Option<u32>) -> Move {
        let Some(word) = word else {
            return Move::Jump;
        };
        let link = |at: u32| [1, 5].contains(&(word >> at & 31));
        let same = word >> 7 & 31 == word >> 15 & 31;
        match word & 0x7f {
            0x6f if link(7) => Move::Call,
            0x67 => match (link(7), link(15)) {
                (false, false) => Move::Jump,
                (false, true) => Move::Return,
                (true, true) if !same => Move::Swap,
                (true, _) => Move::Call,
            },
            _ if word == MRET || word == SRET => Move::TrapReturn,
            _ => Move::Jump,
        }
    }

    pub fn calls(self) -> bool {
        matches!(self, Move::Call | Move::Swap | Move::Trap)
    }
}

struct Frame {
    /// Where the call comes back to; none for a trap, and for where all began.
    back: Option<u64>,
    trap: bool,
    function: Id,
    node: Node,
}

pub struct Stack {
    /// Never empty.
    frames: Vec<Frame>,
    /// How many calls wait at an address.
    waiting: HashMap<u64, usize>,
}

impl Stack {
    pub fn new(function: Id, tree: &mut Tree) -> Stack {
        let frame = Frame {
            back: None,
            trap: false,
            function,
            node: tree.child(ROOT, function),
        };
        Stack {
            frames: vec![frame],
            waiting: HashMap::new(),
        }
    }

    /// Where the hart is.
    pub fn top(&self) -> (Id, Node) {
        self.frames
            .last()
            .map_or((0, ROOT), |frame| (frame.function, frame.node))
    }

    /// Takes away what is over by a return to `pc`.
    pub fn returns(&mut self, taken: Move, pc: u64) {
        let waited_for = self.waiting.contains_key(&pc);
        let over = |frame: &Frame| match taken {
            Move::TrapReturn => frame.trap,
            _ => frame.back == Some(pc),
        };
        match taken {
            Move::Return | Move::Swap if waited_for => (),
            Move::TrapReturn => (),
            _ => return,
        }
        let Some(last) = self.frames.iter().rposition(over) else {
            return;
        };
        for frame in self.frames.drain(last..) {
            if let Some(back) = frame.back {
                let waiting = self.waiting.entry(back).or_insert(1);
                *waiting -= 1;
                if *waiting == 0 {
                    self.waiting.remove(&back);
                }
            }
        }
    }

    /// Goes into a function that comes back to `back`.
    pub fn calls(&mut self, taken: Move, back: u64, function: Id, tree: &mut Tree) {
        if self.frames.len() > MOST_CALLS {
            return self.becomes(function, tree);
        }
        let trap = taken == Move::Trap;
        let back = (!trap).then_some(back);
        if let Some(back) = back {
            *self.waiting.entry(back).or_insert(0) += 1;
        }
        let (_, caller) = self.top();
        self.frames.push(Frame {
            back,
            trap,
            function,
            node: tree.child(caller, function),
        });
    }

    /// The function on top gives its place to another.
    pub fn becomes(&mut self, function: Id, tree: &mut Tree) {
        let below = self.frames.len().checked_sub(2);
        let caller = below.map_or(ROOT, |below| self.frames[below].node);
        if let Some(top) = self.frames.last_mut() {
            top.function = function;
            top.node = tree.child(caller, function);
        }
    }
}

#[cfg(test)]
mod tests {
    use super::*;

    /// The manual's table of hints for JALR, by rd and rs1; and those for JAL, by rd.
    #[test]
    fn jumps_by_their_link_registers() {
        let jalr = |rd: u32, rs1: u32| Move::of(Some(rs1 << 15 | rd << 7 | 0x67));
        for other in [0, 2, 4, 6, 10, 31] {
            assert_eq!(jalr(other, other), Move::Jump);
            for link in [1, 5] {
                assert_eq!(jalr(other, link), Move::Return);
                assert_eq!(jalr(link, other), Move::Call);
            }
        }
        assert_eq!((jalr(1, 5), jalr(5, 1)), (Move::Swap, Move::Swap));
        assert_eq!((jalr(1, 1), jalr(5, 5)), (Move::Call, Move::Call));
        let jal = |rd: u32| Move::of(Some(rd << 7 | 0x6f));
        assert_eq!((jal(1), jal(5)), (Move::Call, Move::Call));
        assert_eq!((jal(0), jal(10)), (Move::Jump, Move::Jump));
        assert_eq!(Move::of(Some(MRET)), Move::TrapReturn);
        assert_eq!(Move::of(Some(SRET)), Move::TrapReturn);
        assert_eq!(
            (Move::of(Some(0x63)), Move::of(None)),
            (Move::Jump, Move::Jump)
        );
    }

    #[test]
    fn a_stack_has_bounds() {
        let mut tree = Tree::new();
        let mut stack = Stack::new(0, &mut tree);
        for call in 0..2 * MOST_CALLS as u64 {
            stack.calls(Move::Call, call, 1, &mut tree);
        }
        assert_eq!(stack.frames.len(), MOST_CALLS + 1);
        assert_eq!(stack.waiting.len(), MOST_CALLS);
        stack.returns(Move::Return, 7);
        assert_eq!((stack.frames.len(), stack.waiting.len()), (8, 7));
    }
}
