//! A leaf of the page map (docs/HART.md, 1.10), and the pages that it is of.

pub const V: u64 = 1 << 0;
pub const R: u64 = 1 << 1;
pub const W: u64 = 1 << 2;
pub const X: u64 = 1 << 3;
pub const U: u64 = 1 << 4;
pub const A: u64 = 1 << 6;
pub const D: u64 = 1 << 7;

/// The frame number's bits, 53:10.
pub const FRAME_SHIFT: u32 = 10;
pub const FRAME: u64 = ((1 << 44) - 1) << FRAME_SHIFT;
/// The bits that must be 0, 63:54.
pub const RESERVED: u64 = !0 << 54;

/// Bytes of a page and of a frame.
pub const PAGE: u64 = 4096;
/// One more than the largest number of a virtual page.
pub const NUMBERS: u64 = 1 << 27;
/// The most entries that a map may have.
pub const ENTRIES: usize = 64;

/// The virtual address of a page's first byte: bits 63:39 as bit 38.
pub fn address(number: u64) -> u64 {
    ((number << 37) as i64 >> 25) as u64
}
