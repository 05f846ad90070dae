//! From address to byte: rules 7.1 to 7.9 of docs/HART.md, in their order. Step 5 here is rule 7.5.
//!
//! The result is the place in memory of the first byte of the access, or the trap. The trap's tval is
//! the transformed address; a fetch is not transformed, so there it is the plain one. `path` gives what an access
//! meets on its way, for those who explain or count it.

use crate::access::{Access, Kind, Reason};
use crate::csrs::field::*;
use crate::hart::{Hart, MACHINE, SUPERVISOR, USER};
use crate::leaf::{A, D, FRAME, FRAME_SHIFT, NUMBERS, PAGE, R, RESERVED, U, V, W, X};
use crate::memory::MEMORY_START;
use crate::trap::Trap;

/// An Sv39 address has 39 bits; this many bits above them only repeat bit 38.
const SV39_SPARE_BITS: u32 = 25;

/// All nine steps. `size` is the length of memory in bytes.
///
/// Always inlined: each caller's kind of access is fixed, so most questions fall away there.
#[inline(always)]
pub(crate) fn translate(h: &Hart, map: &[u64], size: usize, access: Access) -> Result<usize, Trap> {
    let regime = Regime::of(h, access.kind);
    let address = regime.transformed(access.address);
    physical(h, map, &regime, access, address)
        .and_then(|physical| place(physical, size))
        .map_err(|reason| Trap {
            cause: reason.cause(access.kind),
            tval: address,
        })
}

/// What an access meets on its way.
#[derive(Clone, Copy, PartialEq, Eq, Debug)]
pub struct Path {
    pub regime: Regime,
    /// The address after step 2.
    pub transformed: u64,
    /// The page that the map is asked for; none without Sv39, or where the address is none of Sv39's.
    pub page: Option<u64>,
    /// Where steps 3 to 8 lead, or which of them refuses.
    pub physical: Result<u64, Reason>,
    /// The place in memory, or which of steps 3 to 9 refuses.
    pub place: Result<usize, Reason>,
}

/// The same nine steps, and what they met.
pub fn path(h: &Hart, map: &[u64], size: usize, access: Access) -> Path {
    let regime = Regime::of(h, access.kind);
    let transformed = regime.transformed(access.address);
    let physical = physical(h, map, &regime, access, transformed);
    Path {
        regime,
        transformed,
        page: page_number(transformed).filter(|_| regime.paged),
        physical,
        place: physical.and_then(|physical| place(physical, size)),
    }
}

/// Steps 1 and 2: whose rights an access has, and what masking makes of its address.
#[derive(Clone, Copy, PartialEq, Eq, Debug)]
pub struct Regime {
    /// The effective mode.
    pub mode: u64,
    /// Whether Sv39 is in force.
    pub paged: bool,
    /// How many upper bits the mode's PMM masks.
    pub bits: u32,
    /// Whether nothing is masked all the same.
    pub spared: bool,
}

impl Regime {
    #[inline(always)]
    pub fn of(h: &Hart, kind: Kind) -> Regime {
        let under_mprv = h.mode == MACHINE && h.mstatus & MPRV != 0 && kind.heeds_mprv();
        let mode = if under_mprv { h.mpp() } else { h.mode };
        Regime {
            mode,
            paged: mode != MACHINE && h.satp == SV39,
            bits: masked_bits(h, mode),
            // docs/HART.md, 7.2 e (Pointer Masking 1.0.0-rc1, section 2.6): where MPRV decides while MXR is set too, so
            // that M can read with the rights of a fetch, which is not masked either; whatever mode MPP names, and also
            // where it names M.
            spared: kind == Kind::Fetch || under_mprv && h.mstatus & MXR != 0,
        }
    }

    /// The address as the steps from 3 on see it.
    #[inline(always)]
    pub fn transformed(&self, address: u64) -> u64 {
        if self.spared {
            address
        } else {
            self.masked(address)
        }
    }

    /// What PMM makes of an address, were it not spared.
    #[inline(always)]
    pub fn masked(&self, address: u64) -> u64 {
        ignore_upper(address, self.bits, self.paged)
    }
}

/// Step 2: how many upper bits are masked in this mode.
fn masked_bits(h: &Hart, mode: u64) -> u32 {
    let setting = match mode {
        USER => h.senvcfg,
        SUPERVISOR => h.menvcfg,
        _ => h.mseccfg,
    };
    match (setting & PMM) >> PMM_SHIFT {
        2 => 7,
        3 => 16,
        _ => 0,
    }
}

/// Step 2: the upper bits of a virtual address copy the highest bit left, those of a physical one become 0.
fn ignore_upper(address: u64, bits: u32, is_virtual: bool) -> u64 {
    let shifted = address << bits;
    if is_virtual {
        (shifted as i64 >> bits) as u64
    } else {
        shifted >> bits
    }
}

/// Steps 3 to 8: the physical address of the transformed one.
#[inline(always)]
fn physical(
    h: &Hart,
    map: &[u64],
    regime: &Regime,
    access: Access,
    address: u64,
) -> Result<u64, Reason> {
    if address % access.width != 0 {
        return Err(Reason::Misaligned);
    }
    if access.kind.is_shadow() && !regime.paged {
        return Err(match regime.mode {
            MACHINE => Reason::ShadowInMachine,
            _ => Reason::ShadowInBare,
        });
    }
    if regime.paged {
        sv39(h, map, regime.mode, access.kind, address)
    } else {
        Ok(address)
    }
}

/// Steps 5 to 8, under Sv39.
fn sv39(h: &Hart, map: &[u64], mode: u64, kind: Kind, address: u64) -> Result<u64, Reason> {
    let page = page_number(address).ok_or(Reason::NotCanonical)?;
    let entry = find(map, page).ok_or(Reason::NoEntry)?;
    accepted(entry, h.menvcfg)?;
    user_bit(h, mode, kind, entry)?;
    shadow_page(kind, entry)?;
    permission(h, kind, entry)?;
    Ok(frame(entry) + address % PAGE)
}

/// Step 5: the number of an address's page, if it is one of Sv39's.
fn page_number(address: u64) -> Option<u64> {
    let canonical = ignore_upper(address, SV39_SPARE_BITS, true) == address;
    canonical.then_some(address / PAGE % NUMBERS)
}

/// The entry of an address's page, if it is one of Sv39's and the map has it.
pub fn entry(map: &[u64], address: u64) -> Option<u64> {
    find(map, page_number(address)?)
}

/// Step 5: the entry of this page. The page numbers of the map strictly rise.
fn find(map: &[u64], page: u64) -> Option<u64> {
    let mut rest = map;
    while rest.len() >= 4 {
        let (low, high) = rest.split_at(rest.len() / 4 * 2);
        rest = if high[0] <= page { high } else { low };
    }
    match rest {
        [number, entry, ..] if *number == page => Some(*entry),
        _ => None,
    }
}

/// Step 5: whether the entry can be used at all.
pub fn accepted(entry: u64, menvcfg: u64) -> Result<(), Reason> {
    let reason = match entry & (R | W | X) {
        _ if entry & V == 0 => Reason::NotValid,
        0 => Reason::NoRights,
        _ if entry & RESERVED != 0 => Reason::ReservedBits,
        W if menvcfg & SSE == 0 => Reason::WriteAlone,
        rights if rights == W | X => Reason::WriteWithoutRead,
        _ => return Ok(()),
    };
    Err(reason)
}

/// Step 6.
fn user_bit(h: &Hart, mode: u64, kind: Kind, entry: u64) -> Result<(), Reason> {
    match (entry & U != 0, mode) {
        (false, USER) => Err(Reason::NotOfUser),
        (false, _) | (true, USER) => Ok(()),
        (true, _) if kind == Kind::Fetch => Err(Reason::FetchOfUser),
        (true, _) if h.mstatus & SUM == 0 => Err(Reason::DataOfUser),
        (true, _) => Ok(()),
    }
}

/// W alone. That menvcfg.SSE is 1 has been asked in step 5.
fn is_shadow_page(entry: u64) -> bool {
    entry & (R | W | X) == W
}

/// Step 7: shadow accesses want a shadow page; stores and fetches want another.
fn shadow_page(kind: Kind, entry: u64) -> Result<(), Reason> {
    match (kind, is_shadow_page(entry)) {
        (Kind::Push | Kind::Pop | Kind::Swap, false) if entry & (R | W | X) == R => {
            Err(Reason::ShadowToReadOnly)
        }
        (Kind::Push | Kind::Pop | Kind::Swap, false) => Err(Reason::ShadowToOther),
        (Kind::Store, true) => Err(Reason::StoreToShadow),
        (Kind::Fetch, true) => Err(Reason::FetchFromShadow),
        _ => Ok(()),
    }
}

/// Step 8. A shadow access has its shadow page by step 7, and needs only A and D.
fn permission(h: &Hart, kind: Kind, entry: u64) -> Result<(), Reason> {
    let executable = entry & X != 0;
    let readable = || entry & R != 0 || executable && h.mstatus & MXR != 0 || is_shadow_page(entry);
    match kind {
        Kind::Fetch if !executable => Err(Reason::NotExecutable),
        Kind::Load if !readable() => Err(Reason::NotReadable),
        Kind::Store if entry & W == 0 => Err(Reason::NotWritable),
        _ if entry & A == 0 => Err(Reason::NotAccessed),
        _ if kind.writes() && entry & D == 0 => Err(Reason::NotDirty),
        _ => Ok(()),
    }
}

/// Step 9: the physical address of the first byte of the entry's frame.
fn frame(entry: u64) -> u64 {
    ((entry & FRAME) >> FRAME_SHIFT) * PAGE
}

/// Step 9. The access is aligned and memory is whole pages, so its first byte speaks for all.
fn place(physical: u64, size: usize) -> Result<usize, Reason> {
    let at = physical.checked_sub(MEMORY_START);
    at.and_then(|at| usize::try_from(at).ok())
        .filter(|at| *at < size)
        .ok_or(Reason::Outside)
}
