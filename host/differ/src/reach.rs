//! What a step reaches for in memory, and how that goes: its fetch, and the access of its word. The second simulator says both.

use crate::simulator::by_second;
use second::{access, path, Access, Kind, Path};
use sporhulma::Hart;

pub const FETCH: &str = "fetch";
pub const LOAD: &str = "load";
pub const STORE: &str = "store";
pub const PUSH: &str = "push";
pub const POP: &str = "pop";
pub const SWAP: &str = "swap";
pub const KINDS: [&str; 6] = [FETCH, LOAD, STORE, PUSH, POP, SWAP];

pub struct Reach {
    pub kind: &'static str,
    pub access: Access,
    pub path: Path,
}

impl Reach {
    fn new(hart: &second::Hart, map: &[u64], size: usize, access: Access) -> Reach {
        Reach {
            kind: KINDS[access.kind as usize],
            access,
            path: path(hart, map, size, access),
        }
    }
}

/// A step's fetch.
pub fn fetch(hart: &Hart, map: &[u64], size: usize) -> Reach {
    let hart = by_second(hart);
    let access = Access {
        kind: Kind::Fetch,
        width: 4,
        address: hart.pc,
    };
    Reach::new(&hart, map, size, access)
}

/// The access that a word makes.
pub fn reach(hart: &Hart, map: &[u64], size: usize, word: u32) -> Option<Reach> {
    let hart = by_second(hart);
    let access = access(&hart, word)?;
    Some(Reach::new(&hart, map, size, access))
}
