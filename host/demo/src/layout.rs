//! How the controller lies in memory, and the hart that starts it: the pages of examples/torque/torque.map.

use crate::image::symbol;
use formats::csr::field::{SSE, SV39};
use formats::leaf::{A, D, FRAME_SHIFT, PAGE, R, U, V, W, X};
use sporhulma::{word, Hart, BASE};

/// What a page lets the program do.
const CODE: u64 = R | X;
const DATA: u64 = R | W;
const SHADOW: u64 = W;

/// Virtual address, permissions; the frames follow each other from memory's start in this order.
const PAGES: [(u64, u64); 7] = [
    (0x10000, CODE),
    (0x20000, DATA),
    (0x30000, DATA),
    (0x40000, SHADOW),
    (0x50000, DATA),
    (0x51000, DATA),
    (0x52000, DATA),
];

/// Whether the hart has its shadow stack on: both enables, menvcfg.SSE and senvcfg.SSE.
#[derive(Clone, Copy, PartialEq, Eq, Debug)]
pub enum Shadow {
    Off,
    On,
}

/// The page map, as the hart takes it: two words a page.
pub fn map() -> Vec<u64> {
    let leaf = |frame: u64, may: u64| (BASE / PAGE + frame) << FRAME_SHIFT | may | V | U | A | D;
    (0..)
        .zip(PAGES)
        .flat_map(|(frame, (page, may))| [page / PAGE, leaf(frame, may)])
        .collect()
}

/// Memory with an image at its start.
pub fn memory(image: &[u8]) -> Vec<u8> {
    let mut memory = vec![0; PAGES.len() * PAGE as usize];
    memory[..image.len()].copy_from_slice(image);
    memory
}

/// The hart at the program's start: user mode, Sv39.
pub fn hart(shadow: Shadow) -> Result<Hart, String> {
    let enable = match shadow {
        Shadow::Off => 0,
        Shadow::On => SSE,
    };
    let mut hart = Hart::fresh();
    hart.rest[word::PC] = symbol("_start")?;
    hart.rest[word::MODE] = 0;
    hart.rest[word::SSP] = symbol("SHADOW_TOP")?;
    hart.rest[word::SATP] = SV39;
    hart.rest[word::MENVCFG] = enable;
    hart.rest[word::SENVCFG] = enable;
    Ok(hart)
}

/// The `N` bytes at a virtual address of the program.
pub fn bytes<const N: usize>(memory: &[u8], address: u64) -> Result<[u8; N], String> {
    let frame = PAGES
        .iter()
        .position(|&(page, _)| page == address / PAGE * PAGE);
    frame
        .map(|frame| frame * PAGE as usize + (address % PAGE) as usize)
        .and_then(|at| memory.get(at..)?.first_chunk::<N>())
        .copied()
        .ok_or_else(|| format!("the controller has no {N} bytes at {address:#x}"))
}
