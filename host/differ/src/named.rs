//! Which frames of memory a user's program may reach at all (rules 13.10 to 13.15): those that a valid entry with its U bit names.
//!
//! The second simulator says which leaves are pages (docs/HART.md, 7.5), and the tests below hold it to that.

use crate::case::{BASE, PAGE};
use crate::world::{FRAME, U};

/// Step 5: whether the leaf is accepted as a page's. W alone is a shadow page, which there is only while menvcfg.SSE is 1.
pub fn valid(leaf: u64, menvcfg: u64) -> bool {
    second::accepted(leaf, menvcfg).is_ok()
}

/// Whether a user's program may reach the frame of this leaf.
pub fn users(leaf: u64, menvcfg: u64) -> bool {
    valid(leaf, menvcfg) && leaf & U != 0
}

/// The place of the leaf's frame in memory, counted in frames; none of memory's for a frame outside it.
pub fn place(leaf: u64) -> u64 {
    ((leaf & FRAME) >> 10).wrapping_sub(BASE / PAGE)
}

/// Of each frame of memory, the last one perhaps cut short, whether a valid entry with its U bit names it.
pub fn named(map: &[u64], menvcfg: u64, bytes: usize) -> Vec<bool> {
    let mut named = vec![false; bytes.div_ceil(PAGE as usize)];
    for entry in map.chunks_exact(2).filter(|entry| users(entry[1], menvcfg)) {
        if let Some(frame) = named.get_mut(place(entry[1]) as usize) {
            *frame = true;
        }
    }
    named
}

/// The leaf of a virtual address, if it is one of Sv39's and the map has its page.
pub fn leaf(map: &[u64], address: u64) -> Option<u64> {
    second::entry(map, address)
}

#[cfg(test)]
mod tests {
    use super::*;
    use crate::state::SSE;
    use crate::world::{NUMBERS, R, V, W, X};

    const FIRST: u64 = (BASE / PAGE) << 10;

    #[test]
    fn each_bit_of_step_5_counts() {
        assert!(valid(V | R, 0));
        assert!(!valid(R | W | X | U, SSE));
        assert!(!valid(V | U, SSE));
        assert!(!valid(V | W | X, SSE));
        assert!(valid(V | W, SSE));
        assert!(!valid(V | W, !SSE));
        for bit in 54..64 {
            assert!(!valid(V | R | 1 << bit, SSE));
        }
        for bit in 4..54 {
            assert!(valid(V | R | 1 << bit, 0));
        }
    }

    #[test]
    fn a_frame_is_named_by_a_valid_entry_with_u_alone() {
        let named = |leaf: u64| named(&[7, leaf], SSE, 3 * PAGE as usize);
        let second = FIRST + (1 << 10);
        assert_eq!(named(second | V | R | U), [false, true, false]);
        assert_eq!(named(second | V | W | U), [false, true, false]);
        assert_eq!(named(second | V | R), [false; 3]);
        assert_eq!(named(second | R | U), [false; 3]);
        assert_eq!(named((FIRST - (1 << 10)) | V | R | U), [false; 3]);
        assert_eq!(named((FIRST + (3 << 10)) | V | R | U), [false; 3]);
    }

    #[test]
    fn a_frame_without_u_is_named_by_another_entry() {
        let map = [7, FIRST | V | R | W, 8, FIRST | V | R | U];
        assert_eq!(named(&map, 0, PAGE as usize + 1), [true, false]);
    }

    #[test]
    fn an_address_finds_its_leaf() {
        let map = [7, V, NUMBERS - 1, V | R];
        assert_eq!(leaf(&map, 7 * PAGE + 5), Some(V));
        assert_eq!(leaf(&map, 8 * PAGE), None);
        assert_eq!(leaf(&map, u64::MAX), Some(V | R));
        assert_eq!(leaf(&map, u64::MAX >> 25), None);
    }
}
