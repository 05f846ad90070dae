//! The second simulator: one RV64 hart with M, S and U modes, landing pads, shadow stack and pointer masking.
//!
//! It is written from the rules (docs/HART.md) and the RISC-V manuals, and not from the
//! proved simulator, so that the two can be held against each other. It works by reference: a call changes the hart and the
//! memory that it is lent. The calls are in `run`, loading a text in Intel HEX is in `hex`, an instruction as eight numbers in `read` and `write`;
//! `path` says how an access goes and which rule refuses it; `csrs` and `leaf` have the places of fields. The other files hold one subject each.
//! It uses no other crate; the others of `host/` may ask it.

mod access;
mod alu;
mod csr;
pub mod csrs;
mod decode;
mod execute;
mod fields;
mod hart;
mod hex;
pub mod leaf;
mod memory;
mod multiply;
mod pads;
mod read;
mod refusal;
mod run;
mod shadow;
mod translate;
mod trap;
mod write;

pub use access::{access, Access, Kind, Reason};
pub use decode::family;
pub use hart::Hart;
pub use hex::{load_hex, Loaded};
pub use pads::enabled as pads_on;
pub use read::read;
pub use run::{run, step, step_word, Answer};
pub use shadow::enabled as shadow_stack_on;
pub use translate::{accepted, entry, path, Path, Regime};
pub use write::write;
