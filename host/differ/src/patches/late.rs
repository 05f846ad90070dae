//! What reaches the fast path of a run: loops of so many steps that the quick way takes that the fast path begins behind them, accesses to pages
//! that are remembered at the same place, and faults on pages that are remembered.

use super::words::SUM;
use super::writer::*;
use crate::program::TABLE;
use crate::ways::{FAR, FIRST};
use formats::*;

/// The registers that point to the middle of the pages of the crowd: data again, constants, data that can't be written, and no memory at all.
pub const CROWDED: [u32; 4] = [SAME, MORE, READ_ONLY, OUTSIDE];
const SAME: u32 = 3;
const MORE: u32 = 4;
const READ_ONLY: u32 = 19;
const OUTSIDE: u32 = 24;

/// So far apart two words have the same place in a memo of 4,096.
const MEMO: u64 = 4 * 4096;

impl Writer<'_> {
    /// In a late program, a loop that the quick way takes, and the fast path its end. It leaves memory alone.
    pub fn warm(&mut self) {
        if !self.plan.late {
            return;
        }
        let words = self.random.below(3);
        let steps = match std::mem::take(&mut self.far) {
            true => FIRST + FAR,
            false => FIRST,
        };
        let rounds = steps / (words + 2) + self.random.below(24);
        let upper = (rounds + 0x800) >> 12;
        self.words.push(u(LUI, INNER, upper as u32));
        self.words.push(i(OP_IMM, 0, INNER, INNER, rounds));
        for _ in 0..words {
            let word = i(OP_IMM, 0, SUM, SUM, self.random.word() >> 52);
            self.words.push(word);
        }
        let back = (4 * (words + 1)).wrapping_neg();
        self.words.push(i(OP_IMM, 0, INNER, INNER, u64::MAX));
        self.words.push(b(1, INNER, 0, back));
    }

    /// Sometimes, where there is room, goes so far on that the next word has the same place in the memo as the one at `first`, or one near it.
    pub fn apart(&mut self, first: u64) {
        let there = first + MEMO + 4 * self.random.below(4);
        let room = there > self.here() && there + 4 * 100 < self.limit();
        if self.plan.late && room && self.random.chance(60) {
            let words = (there - self.here()) / 4;
            let at = self.reserve(words as usize);
            self.words[at..].fill(0);
        }
    }

    /// Loads and stores of pages that are remembered at the same place, by turns.
    pub fn crowd(&mut self) {
        self.warm();
        let times = self.times();
        self.repeated(INNER, times, |writer| {
            for _ in 0..3 + writer.random.below(6) {
                let at = writer.random.pick(&[TABLE, SAME, MORE, READ_ONLY]);
                let store = at != READ_ONLY && writer.random.chance(50);
                let word = writer.access(at, store, 0);
                writer.words.push(word);
            }
            writer.filler(1);
        });
    }

    /// Accesses that pass, and behind them one to the same page or to its neighbour at the same place that does not.
    pub fn fault(&mut self) {
        self.crowd();
        let (at, store, slip) = self.random.pick(&[
            (READ_ONLY, true, 0),
            (OUTSIDE, true, 0),
            (OUTSIDE, false, 0),
            (TABLE, true, 1),
            (TABLE, false, 1),
            (SAME, true, 1),
        ]);
        let word = self.access(at, store, slip);
        self.words.push(word);
    }

    /// A load or a store in the upper half of a page whose middle a register points to, `slip` bytes from where it is aligned.
    fn access(&mut self, at: u32, store: bool, slip: u64) -> u32 {
        // One byte is aligned everywhere.
        let least = u64::from(slip > 0);
        let funct3 = least + self.random.below(4 - least);
        let width = 1 << funct3;
        let offset = self.random.below(2048 / width - 1) * width + slip;
        match store {
            true => s(STORE, funct3 as u32, at, 10, offset),
            false => i(LOAD, funct3 as u32, 11, at, offset),
        }
    }
}
