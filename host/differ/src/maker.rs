//! What the makers of instructions share: the case being made, its world, and addresses worth an access.

use crate::case::{Case, BASE, PAGE};
use crate::state::View;
use crate::world::{Role, World};
use formats::random::Random;

pub struct Maker<'a> {
    pub random: &'a mut Random,
    pub case: &'a mut Case,
    pub world: &'a World,
    pub view: View,
}

impl Maker<'_> {
    pub fn register(&mut self) -> u32 {
        self.random.below(32) as u32
    }

    /// An offset of 12 bits with its sign: small, at an end, or any.
    pub fn immediate(&mut self) -> u64 {
        let ends = [0, 0, 8, 0x7FF, -8_i64 as u64, -0x800_i64 as u64];
        let word = self.random.word();
        match word & 3 {
            0 => self.random.pick(&ends),
            _ => formats::signed12(word >> 32),
        }
    }

    /// An offset in a page: its ends, any aligned one, seldom a misaligned one.
    fn offset(&mut self, width: u64) -> u64 {
        match self.random.below(24) {
            0 | 1 => 0,
            2 | 3 => PAGE - width,
            4 => self.random.below(PAGE),
            _ => self.random.below(PAGE / width) * width,
        }
    }

    /// An address for an access of `width` bytes to a page of this role, as the program may give it, before masking.
    pub fn address(&mut self, role: Role, width: u64) -> u64 {
        if self.random.chance(6) {
            return self.edge(width);
        }
        let offset = self.offset(width);
        let plain = self.world.at(role, self.view.data.paged, offset);
        self.dirty(plain, self.view.data.bits)
    }

    /// An address with upper bits that masking changes, where `masked` of them are; seldom one that it does not mend.
    pub fn dirty(&mut self, plain: u64, masked: u32) -> u64 {
        let word = self.random.word();
        match word & 31 {
            0..=19 if masked > 0 => {
                plain << masked >> masked | word >> (64 - masked) << (64 - masked)
            }
            31 => plain ^ self.random.one_bit(!0 << 38),
            _ => plain,
        }
    }

    /// An address at an edge: of memory, of the two halves of Sv39, of the address space.
    pub fn edge(&mut self, width: u64) -> u64 {
        let end = BASE + self.case.mem.len() as u64;
        let half = 1 << 38;
        let step = self.random.pick(&[0, width, width, 1, width / 2]);
        let edges = [BASE, end, 0, half, !half + 1, 1 << 48, 1 << 57, 1 << 63];
        self.random.pick(&edges).wrapping_sub(step)
    }
}
