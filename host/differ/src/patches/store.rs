//! What a step stored, and where: for those who count patches, and for those who plant a fault.

use crate::simulator::by_second;
use second::Kind;
use sporhulma::Hart;

pub const PUSH: &str = "push";
const STORES: [&str; 4] = ["SB", "SH", "SW", "SD"];
const SWAPS: [&str; 2] = ["swap.w", "swap.d"];
/// Every instruction that stores, and those that store two words.
pub const ALL: [&str; 7] = ["SB", "SH", "SW", "SD", PUSH, "swap.w", "swap.d"];
pub const DOUBLES: [&str; 3] = ["SD", PUSH, "swap.d"];

#[derive(Clone, Copy, PartialEq, Eq, Debug)]
pub struct Stored {
    pub by: &'static str,
    /// The address after masking, and the place in memory.
    pub address: u64,
    pub place: u64,
    pub bytes: u64,
}

/// What a word that did not trap has stored; `before` is the hart before it.
pub fn stored(before: &Hart, word: u32, map: &[u64]) -> Option<Stored> {
    let hart = by_second(before);
    let access = second::access(&hart, word)?;
    let by = match (access.kind, access.width) {
        (Kind::Store, bytes) => STORES[bytes.ilog2() as usize],
        (Kind::Push, _) => PUSH,
        (Kind::Swap, bytes) => SWAPS[bytes.ilog2() as usize - 2],
        _ => return None,
    };
    // It reached memory, however long that is.
    let path = second::path(&hart, map, usize::MAX, access);
    Some(Stored {
        by,
        address: path.transformed,
        place: path.place.ok()? as u64,
        bytes: access.width,
    })
}

#[cfg(test)]
mod tests {
    use super::*;
    use crate::case::Call;
    use crate::patches::make::{make, Made};
    use crate::simulator::{Second, Simulator};
    use std::collections::BTreeSet;

    /// Nothing but what is said to be stored changes, in any step of some programs.
    #[test]
    fn a_step_changes_what_it_is_said_to_store() {
        let mut made = Made::default();
        let mut seen = BTreeSet::new();
        for number in 0..60 {
            make(2, number, &mut made);
            let case = &mut made.case;
            for _ in 0..150 {
                let (hart, mem) = (case.hart, case.mem.clone());
                let answer = Second.call(Call::Step, &mut case.hart, &mut case.mem, &case.map);
                let word = crate::again::word_at(&hart, &mem, &case.map);
                let stored = word
                    .filter(|_| !answer.trapped)
                    .and_then(|word| stored(&hart, word, &case.map));
                let bytes = stored.map_or(0..0, |stored| {
                    seen.insert(stored.by);
                    stored.place..stored.place + stored.bytes
                });
                for (at, (one, other)) in mem.iter().zip(&case.mem).enumerate() {
                    assert!(one == other || bytes.contains(&(at as u64)));
                }
            }
        }
        assert_eq!(seen, ALL.into());
    }
}
