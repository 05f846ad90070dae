//! Differential tests: the proved simulator (crate `sporhulma`) against the independent one (crate `second`).
//!
//! A case is a whole input: hart, memory, page map and call. `steps` and `runs` make cases from a seed and a number,
//! `pair` gives a case to both simulators and compares everything they leave, `soak` does that many times and counts
//! the mix, `text` writes a case as text and reads it back, and `decoder` compares the verdict on all 2^32 words.
//! For M and Zbb `multiply` and `operands` make instructions at their corners, and `added` counts these.
//! For rules 13.10 to 13.15 `hidden` makes pairs of memories that differ where a user's program may not reach, `twins` looks whether
//! anything of it shows, and `seen` counts what the pairs were. For chapter 11 `hex` holds the readers of Intel HEX against each other.
//! For chapter 12 `eights` sends words and instructions as eight numbers through a read and a write.
//! `patches` makes programs that patch themselves, for a run that remembers what it has decoded; `ways` says which way such a run takes a step.

pub mod added;
pub mod again;
pub mod case;
pub mod csr;
pub mod decoder;
pub mod eights;
pub mod hex;
pub mod hidden;
pub mod instruction;
pub mod lifted;
pub mod maker;
pub mod mix;
pub mod multiply;
pub mod named;
pub mod operands;
pub mod options;
pub mod pair;
pub mod patches;
pub mod program;
pub mod reach;
pub mod refuse;
pub mod runs;
pub mod seen;
pub mod shadow;
pub mod simulator;
pub mod soak;
pub mod state;
pub mod steps;
pub mod text;
pub mod twins;
pub mod visit;
pub mod ways;
pub mod world;
