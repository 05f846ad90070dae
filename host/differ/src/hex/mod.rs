//! Chapter 11 on two readers of Intel HEX: random texts and memories, and what each reader answers and leaves of memory.
//!
//! `good` makes texts that must be loaded, `damage` makes one of them wrong in a way that has a name, `mutate` changes bytes
//! at random, and `make` chooses among them. A text that is good or damaged comes with the answer that it must get, so that
//! two readers with one mistake are found too. `check` compares, `seen` counts what the texts were, and `soak` goes over many.

pub mod check;
pub mod damage;
pub mod good;
pub mod make;
pub mod mutate;
pub mod seen;
pub mod soak;

use crate::simulator::{Proved, Second};
use sporhulma::Loaded;

/// The two readers behind one small trait, so that the comparison can also be tried with an impostor.
pub trait Reader {
    fn load(&self, memory: &mut [u8], text: &[u8]) -> Loaded;
}

impl Reader for Proved {
    fn load(&self, memory: &mut [u8], text: &[u8]) -> Loaded {
        sporhulma::load_hex(memory, text)
    }
}

impl Reader for Second {
    fn load(&self, memory: &mut [u8], text: &[u8]) -> Loaded {
        let second::Loaded {
            refusal,
            line,
            start,
        } = second::load_hex(memory, text);
        Loaded {
            refusal,
            line,
            start,
        }
    }
}
