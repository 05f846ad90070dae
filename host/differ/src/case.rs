//! A case: the whole input of one call of a simulator.

use sporhulma::Hart;

pub use formats::leaf::PAGE;
pub use sporhulma::{Call, BASE};

#[derive(Clone, PartialEq, Eq, Debug)]
pub struct Case {
    pub hart: Hart,
    pub mem: Vec<u8>,
    pub map: Vec<u64>,
    pub call: Call,
}

impl Case {
    pub fn empty() -> Case {
        Case {
            hart: Hart::fresh(),
            mem: Vec::new(),
            map: Vec::new(),
            call: Call::Step,
        }
    }

    /// Sets a register; x0 stays 0, as in every hart that is not refused.
    pub fn set(&mut self, register: u32, value: u64) {
        if register != 0 {
            self.hart.x[register as usize] = value;
        }
    }

    /// Writes bytes at an offset of memory, where they lie in it.
    pub fn poke(&mut self, offset: u64, bytes: &[u8]) {
        let end = offset.checked_add(bytes.len() as u64);
        if end.is_some_and(|end| end <= self.mem.len() as u64) {
            self.mem[offset as usize..][..bytes.len()].copy_from_slice(bytes);
        }
    }

    /// Fills memory as `fill` does.
    pub fn fill(&mut self, len: usize, first: u64, stride: u64) {
        fill(&mut self.mem, len, first, stride);
    }
}

/// Fills a memory with `len` bytes that differ from place to place: `first`, then each eight bytes `stride` more.
pub fn fill(mem: &mut Vec<u8>, len: usize, first: u64, stride: u64) {
    mem.clear();
    mem.resize(len, 0);
    let mut word = first;
    for eight in mem.chunks_exact_mut(8) {
        eight.copy_from_slice(&word.to_le_bytes());
        word = word.wrapping_add(stride);
    }
}
