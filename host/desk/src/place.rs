//! "From address to byte" for one access, told in words: which of rules 7.1 to 7.9 of docs/HART.md refused it, and why. Rule 5 here is 7.5
//! there.
//!
//! The hart's own answer is proved and decides. The second simulator says how the access goes by the same rules, so that a trap
//! can be explained; `explain` compares the two and never hides a difference.

use crate::map::{Entry, PageMap};
use crate::symbols::Space;
pub use second::{Access, Kind};
use second::{Path as Way, Reason};
use sporhulma::{Hart, BASE};

pub fn name(kind: Kind) -> &'static str {
    match kind {
        Kind::Fetch => "fetch",
        Kind::Load => "load",
        Kind::Store => "store",
        Kind::Push => "shadow push",
        Kind::Pop => "shadow pop-check",
        Kind::Swap => "shadow swap",
    }
}

/// Which rule refused, why, and with what cause.
#[derive(Clone, Debug)]
pub struct Refused {
    pub rule: u8,
    pub why: String,
    pub cause: u64,
}

/// What an access met on its way: it ends at a physical address or at a rule.
#[derive(Clone, Debug)]
pub struct Path {
    pub access: Access,
    /// The effective mode.
    pub mode: u64,
    pub sv39: bool,
    /// The address after masking.
    pub transformed: u64,
    /// Where masking is lifted (rule 7.2 e) and would have given another address: that one.
    pub lifted: Option<u64>,
    pub entry: Option<Entry>,
    pub end: Result<u64, Refused>,
}

/// The hart as the second simulator takes it.
pub fn by_the_rules(hart: &Hart) -> second::Hart {
    second::Hart::from_words(&hart.x, &hart.rest)
}

/// Follows an access through the nine rules.
pub fn follow(hart: &Hart, length: u64, map: &PageMap, access: Access) -> Path {
    let way = second::path(&by_the_rules(hart), &map.words, length as usize, access);
    let masked = match access.kind {
        Kind::Fetch => access.address,
        _ => way.regime.masked(access.address),
    };
    let named = |page| map.entries.iter().find(|entry| entry.page == page);
    Path {
        access,
        mode: way.regime.mode,
        sv39: way.regime.paged,
        transformed: way.transformed,
        lifted: (way.transformed != masked).then_some(masked),
        entry: way.page.and_then(named).copied(),
        end: match way.place {
            Ok(place) => Ok(BASE + place as u64),
            Err(reason) => Err(Refused {
                rule: reason.rule(),
                why: why(reason, &way, length, access),
                cause: reason.cause(access.kind),
            }),
        },
    }
}

impl Path {
    /// Which addresses the access is made by.
    pub fn space(&self) -> Space {
        match self.sv39 {
            true => Space::Virtual,
            false => Space::Physical,
        }
    }
}

/// Why an access is refused, in words.
#[rustfmt::skip]
fn why(reason: Reason, way: &Way, length: u64, access: Access) -> String {
    let why = match reason {
        Reason::Misaligned => return format!("the address is not a multiple of {}", access.width),
        Reason::ShadowInMachine => "a shadow access with effective mode M",
        Reason::ShadowInBare => "a shadow access while satp is Bare",
        Reason::NotCanonical => "bits 63:39 of the address do not equal bit 38",
        Reason::NoEntry => return format!("no entry of the map has page {:#x}", way.transformed & !0xfff),
        Reason::NotValid => "V of the entry is 0",
        Reason::NoRights => "R, W and X of the entry are all 0",
        Reason::ReservedBits => "bits 63:54 of the entry are not 0",
        Reason::WriteAlone => "the entry has W alone, and menvcfg.SSE is 0, so it is no shadow page",
        Reason::WriteWithoutRead => "the entry has W without R",
        Reason::NotOfUser => "U mode needs the U bit, and the entry has it not",
        Reason::FetchOfUser => "S mode must not fetch from a page with the U bit",
        Reason::DataOfUser => "S mode needs mstatus.SUM for data on a page with the U bit",
        Reason::ShadowToReadOnly => "a shadow access to a read-only page (R alone)",
        Reason::ShadowToOther => "a shadow access to a page that is no shadow page (W alone)",
        Reason::StoreToShadow => "an ordinary store to a shadow page",
        Reason::FetchFromShadow => "a fetch from a shadow page",
        Reason::NotExecutable => "a fetch needs X",
        Reason::NotReadable => "a load needs R, or X with mstatus.MXR, or a shadow page",
        Reason::NotWritable => "a store needs W",
        Reason::NotAccessed => "A of the entry is 0",
        Reason::NotDirty => return format!("D of the entry is 0, and a {} needs it", name(access.kind)),
        Reason::Outside => return outside(way, length),
    };
    why.into()
}

fn outside(way: &Way, length: u64) -> String {
    let physical = way.physical.unwrap_or_default();
    let end = BASE + length - 1;
    format!("physical {physical:#x} lies outside memory ({BASE:#x} to {end:#x})")
}

#[cfg(test)]
mod tests {
    use super::*;
    use crate::names::{M, S, U};
    use formats::csr::field::{MPP_SHIFT, MPRV, MXR, PMM, SSE, SV39};
    use sporhulma::word;

    /// Rule 7.2 e: the address as transformed, and what masking would have made of it where it is lifted.
    #[test]
    #[rustfmt::skip]
    fn masking_is_lifted_in_m_by_mprv_with_mxr() {
        use Kind::*;
        const TAGGED: u64 = 0xABCD_0000_0000_1000;
        const BOTH: u64 = MPRV | MXR;
        let spared = (TAGGED, Some(0x1000));
        for (mode, kind, mstatus, address, expected) in [
            (M, Load, BOTH, TAGGED, spared),
            (M, Store, BOTH, TAGGED, spared),
            (M, Swap, BOTH, TAGGED, spared),
            (M, Load, BOTH | 1 << MPP_SHIFT, TAGGED, spared),
            (M, Load, BOTH | 3 << MPP_SHIFT, TAGGED, spared),
            (M, Load, BOTH, 0x1000, (0x1000, None)),
            (M, Load, MPRV, TAGGED, (0x1000, None)),
            (M, Load, MXR, TAGGED, (0x1000, None)),
            (S, Load, BOTH, TAGGED, (0x1000, None)),
            (U, Swap, BOTH, TAGGED, (0x1000, None)),
            (M, Push, BOTH, TAGGED, (0x1000, None)),
            (M, Pop, BOTH, TAGGED, (0x1000, None)),
            (M, Fetch, BOTH, TAGGED, (TAGGED, None)),
        ] {
            let mut hart = Hart::fresh();
            hart.rest[word::MODE] = mode;
            hart.rest[word::SATP] = SV39;
            hart.rest[word::MSTATUS] |= mstatus;
            for csr in [word::SENVCFG, word::MENVCFG, word::MSECCFG] {
                hart.rest[csr] = PMM;
            }
            let path = follow(&hart, 4096, &PageMap::default(), Access { kind, width: 4, address });
            assert_eq!((path.transformed, path.lifted), expected, "{kind:?} in mode {mode}: {mstatus:#x}");
        }
    }

    const CODE: u64 = 0x1000;

    /// The rule and the cause where `kind` meets a page with these flags, by a hart in `mode` with the shadow stack on.
    fn met(mode: u64, kind: Kind, flags: &str, address: u64) -> (u8, u64) {
        let mut hart = Hart::fresh();
        hart.rest[word::MODE] = mode;
        hart.rest[word::SATP] = SV39;
        hart.rest[word::MENVCFG] = SSE;
        hart.rest[word::SENVCFG] = SSE;
        let map = PageMap::parse("m", &format!("{CODE:#x} -> {flags}")).unwrap();
        let access = Access {
            kind,
            width: 4,
            address,
        };
        let end = follow(&hart, 4096, &map, access).end;
        end.map_or_else(|refused| (refused.rule, refused.cause), |_| (0, 0))
    }

    /// Each refusal of the nine rules under its own number, and the causes that docs/HART.md gives (7.3 to 7.10).
    #[test]
    #[rustfmt::skip]
    fn each_rule_has_its_number() {
        use Kind::*;
        for (mode, kind, flags, address, rule, cause) in [
            (U, Load, "0x80000000 rw u", CODE + 2, 3, 4),
            (U, Store, "0x80000000 rw u", CODE + 2, 3, 6),
            (U, Swap, "0x80000000 shadow u", CODE + 2, 3, 7),
            (M, Swap, "0x80000000 shadow u", CODE, 4, 7),
            (U, Load, "0x80000000 rw u", CODE | 1 << 39, 5, 13),
            (U, Fetch, "0x80000000 rx u", CODE + 4096, 5, 12),
            (U, Store, "0x80000000 rw u !v", CODE, 5, 15),
            (U, Load, "0x80000000 u", CODE, 5, 13),
            (U, Load, "leaf 0x00400000200000df", CODE, 5, 13),
            (U, Load, "0x80000000 wx u", CODE, 5, 13),
            (U, Load, "0x80000000 rw", CODE, 6, 13),
            (S, Fetch, "0x80000000 rx u", CODE, 6, 12),
            (S, Push, "0x80000000 shadow u", CODE, 6, 15),
            (U, Pop, "0x80000000 r u", CODE, 7, 15),
            (U, Push, "0x80000000 rw u", CODE, 7, 7),
            (U, Store, "0x80000000 shadow u", CODE, 7, 7),
            (U, Fetch, "0x80000000 shadow u", CODE, 7, 1),
            (U, Fetch, "0x80000000 rw u", CODE, 8, 12),
            (U, Load, "0x80000000 x u", CODE, 8, 13),
            (U, Store, "0x80000000 r u", CODE, 8, 15),
            (U, Load, "0x80000000 rw u !a", CODE, 8, 13),
            (U, Push, "0x80000000 shadow u !d", CODE, 8, 15),
            (U, Fetch, "0x80001000 rx u", CODE, 9, 1),
            (U, Load, "0x80001000 rw u", CODE, 9, 5),
            (U, Pop, "0x80001000 shadow u", CODE, 9, 7),
            (U, Pop, "0x80000000 shadow u !d", CODE, 0, 0),
            (U, Load, "0x80000000 shadow u", CODE, 0, 0),
        ] {
            assert_eq!(met(mode, kind, flags, address), (rule, cause), "{kind:?} in mode {mode}: {flags}");
        }
    }
}
