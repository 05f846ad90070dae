//! An access to memory, and why it is refused: the rule of docs/HART.md, chapter 7, which of its cases, and the cause of the trap.

use crate::decode::{decode, Instruction};
use crate::hart::Hart;
use crate::memory::Width;
use crate::shadow;
use crate::trap::*;

#[derive(Clone, Copy, PartialEq, Eq, PartialOrd, Ord, Debug)]
pub enum Kind {
    Fetch,
    Load,
    Store,
    Push,
    Pop,
    Swap,
}

impl Kind {
    pub fn is_shadow(self) -> bool {
        matches!(self, Kind::Push | Kind::Pop | Kind::Swap)
    }

    pub fn writes(self) -> bool {
        matches!(self, Kind::Store | Kind::Push | Kind::Swap)
    }

    /// MPRV moves these into the mode of MPP. A push or pop in M never gets here.
    pub(crate) fn heeds_mprv(self) -> bool {
        matches!(self, Kind::Load | Kind::Store | Kind::Swap)
    }

    fn misaligned(self) -> u64 {
        match self {
            Kind::Fetch => INSTRUCTION_MISALIGNED,
            Kind::Load => LOAD_MISALIGNED,
            Kind::Store => STORE_MISALIGNED,
            Kind::Push | Kind::Pop | Kind::Swap => STORE_ACCESS_FAULT,
        }
    }

    fn access_fault(self) -> u64 {
        match self {
            Kind::Fetch => FETCH_ACCESS_FAULT,
            Kind::Load => LOAD_ACCESS_FAULT,
            _ => STORE_ACCESS_FAULT,
        }
    }

    fn page_fault(self) -> u64 {
        match self {
            Kind::Fetch => FETCH_PAGE_FAULT,
            Kind::Load => LOAD_PAGE_FAULT,
            _ => STORE_PAGE_FAULT,
        }
    }
}

#[derive(Clone, Copy, PartialEq, Eq, Debug)]
pub struct Access {
    pub kind: Kind,
    /// In bytes: 1, 2, 4 or 8.
    pub width: u64,
    /// As the instruction computes it.
    pub address: u64,
}

impl Access {
    #[inline(always)]
    pub(crate) fn new(kind: Kind, address: u64, width: Width) -> Access {
        Access {
            kind,
            width: width.bytes(),
            address,
        }
    }
}

/// The access that a word makes, if it is of an instruction that makes one: no push or pop-check while the shadow stack is off.
pub fn access(h: &Hart, word: u32) -> Option<Access> {
    let (kind, address, width) = match decode(word) {
        Instruction::Load(width, _, o) => {
            (Kind::Load, h.get(o.rs1).wrapping_add(o.immediate), width)
        }
        Instruction::Store(width, o) => {
            (Kind::Store, h.get(o.rs1).wrapping_add(o.immediate), width)
        }
        Instruction::Push { .. } if shadow::enabled(h) => {
            (Kind::Push, shadow::below(h.ssp), shadow::SLOT)
        }
        Instruction::PopCheck { .. } if shadow::enabled(h) => (Kind::Pop, h.ssp, shadow::SLOT),
        Instruction::Swap(width, o) => (Kind::Swap, h.get(o.rs1), width),
        _ => return None,
    };
    Some(Access::new(kind, address, width))
}

/// Why an access is refused. The numbers and letters are those of docs/HART.md.
#[derive(Clone, Copy, PartialEq, Eq, PartialOrd, Ord, Debug)]
pub enum Reason {
    /// 7.3.
    Misaligned,
    /// 7.4, with effective mode M.
    ShadowInMachine,
    /// 7.4, in Bare.
    ShadowInBare,
    /// 7.5 a.
    NotCanonical,
    /// 7.5 b.
    NoEntry,
    /// 7.5 c.
    NotValid,
    /// 7.5 d.
    NoRights,
    /// 7.5 e.
    ReservedBits,
    /// 7.5 f: W alone, which is a shadow page only while menvcfg.SSE is 1.
    WriteAlone,
    /// 7.5 f: W and X.
    WriteWithoutRead,
    /// 7.6 a.
    NotOfUser,
    /// 7.6 b.
    FetchOfUser,
    /// 7.6 c.
    DataOfUser,
    /// 7.7 a.
    ShadowToReadOnly,
    /// 7.7 b.
    ShadowToOther,
    /// 7.7 c.
    StoreToShadow,
    /// 7.7 d.
    FetchFromShadow,
    /// 7.8 a.
    NotExecutable,
    /// 7.8 b.
    NotReadable,
    /// 7.8 c.
    NotWritable,
    /// 7.8 d.
    NotAccessed,
    /// 7.8 e.
    NotDirty,
    /// 7.9.
    Outside,
}

impl Reason {
    /// The rule that refuses, by its last number: 3 is rule 7.3.
    pub fn rule(self) -> u8 {
        match self {
            Reason::Misaligned => 3,
            Reason::ShadowInMachine | Reason::ShadowInBare => 4,
            Reason::NotCanonical
            | Reason::NoEntry
            | Reason::NotValid
            | Reason::NoRights
            | Reason::ReservedBits
            | Reason::WriteAlone
            | Reason::WriteWithoutRead => 5,
            Reason::NotOfUser | Reason::FetchOfUser | Reason::DataOfUser => 6,
            Reason::ShadowToReadOnly
            | Reason::ShadowToOther
            | Reason::StoreToShadow
            | Reason::FetchFromShadow => 7,
            Reason::NotExecutable
            | Reason::NotReadable
            | Reason::NotWritable
            | Reason::NotAccessed
            | Reason::NotDirty => 8,
            Reason::Outside => 9,
        }
    }

    /// The cause of the trap of an access of this kind.
    pub fn cause(self, kind: Kind) -> u64 {
        match (self.rule(), self) {
            (3, _) => kind.misaligned(),
            (7, Reason::ShadowToReadOnly) => kind.page_fault(),
            (4 | 7 | 9, _) => kind.access_fault(),
            _ => kind.page_fault(),
        }
    }
}
