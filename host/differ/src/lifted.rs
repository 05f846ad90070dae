//! Rule 7.2 e in the mix: the loads, stores and swaps that M makes with MPRV and MXR both set, where no bit is masked.

use crate::simulator::by_second;
use crate::state::SV39;
use second::{Access, Kind, Path};
use sporhulma::word::SATP;
use sporhulma::Hart;
use std::collections::BTreeMap;

const KINDS: [&str; 3] = ["load", "store", "swap"];
const MODES: [&str; 3] = ["MPP U", "MPP S", "MPP M"];
const SATPS: [&str; 2] = ["Bare", "Sv39"];
const MASKS: [&str; 3] = ["PMM 0", "PMM 2", "PMM 3"];
/// An address that masking would change, one that Sv39 takes for no address, and what became of any other.
const FATES: [&str; 4] = ["tagged", "not canonical", "refused", "granted"];

/// One of each of the lists above.
type Sort = [&'static str; 5];

/// So many of a hundred steps are to be such accesses.
const LEAST: f64 = 8.0;

/// The load, store or swap that a word makes: those accesses that MPRV is for.
pub fn access(hart: &Hart, word: u32) -> Option<Access> {
    let access = second::access(&by_second(hart), word);
    access.filter(|access| name(access.kind).is_some())
}

fn name(kind: Kind) -> Option<&'static str> {
    match kind {
        Kind::Load => Some(KINDS[0]),
        Kind::Store => Some(KINDS[1]),
        Kind::Swap => Some(KINDS[2]),
        Kind::Fetch | Kind::Push | Kind::Pop => None,
    }
}

fn fate(path: &Path, trapped: bool) -> &'static str {
    if path.regime.masked(path.transformed) != path.transformed {
        FATES[0]
    } else if path.regime.paged && path.page.is_none() {
        FATES[1]
    } else if trapped {
        FATES[2]
    } else {
        FATES[3]
    }
}

/// Whether there is such an access: without a mask no tag, without Sv39 no address that is not canonical, and no swap.
fn possible([kind, mode, satp, mask, fate]: Sort) -> bool {
    let paged = satp == "Sv39" && mode != "MPP M";
    match fate {
        "tagged" => mask != "PMM 0",
        "not canonical" => paged,
        "granted" => paged || kind != "swap",
        _ => true,
    }
}

/// Every sort of access that there is.
fn sorts() -> Vec<Sort> {
    let mut sorts = Vec::new();
    for kind in KINDS {
        for mode in MODES {
            for satp in SATPS {
                for mask in MASKS {
                    sorts.extend(FATES.map(|fate| [kind, mode, satp, mask, fate]));
                }
            }
        }
    }
    sorts.retain(|sort| possible(*sort));
    sorts
}

/// How many there were of each sort.
#[derive(Default)]
pub struct Lifted {
    counts: BTreeMap<Sort, u64>,
}

impl Lifted {
    /// Counts a step that came to its instruction, if the instruction is such an access.
    pub fn note(&mut self, hart: &Hart, word: u32, trapped: bool) {
        let own = by_second(hart);
        let Some(access) = second::access(&own, word) else {
            return;
        };
        let path = second::path(&own, &[], 0, access);
        let Some(kind) = name(access.kind).filter(|_| path.regime.spared) else {
            return;
        };
        let sort = [
            kind,
            MODES[path.regime.mode.min(2) as usize],
            SATPS[usize::from(hart.rest[SATP] == SV39)],
            match path.regime.bits {
                0 => MASKS[0],
                7 => MASKS[1],
                _ => MASKS[2],
            },
            fate(&path, trapped),
        ];
        *self.counts.entry(sort).or_default() += 1;
    }

    /// How many had this name in their sort; all of them for "".
    fn count(&self, name: &str) -> u64 {
        let named = |sort: &Sort| name.is_empty() || sort.contains(&name);
        self.counts
            .iter()
            .filter(|(sort, _)| named(sort))
            .map(|(_, count)| count)
            .sum()
    }

    fn share(&self, steps: u64) -> f64 {
        100.0 * self.count("") as f64 / steps.max(1) as f64
    }

    /// What a reader would miss: a sort of which there was none, or that such accesses are common.
    pub fn complaint(&self, steps: u64) -> Option<String> {
        let sorts = sorts();
        let missing: Vec<_> = sorts
            .iter()
            .filter(|sort| !self.counts.contains_key(*sort))
            .collect();
        match missing[..] {
            [first, ..] => Some(format!(
                "{} of {} sorts of access with MPRV and MXR were never seen ({}, ..)",
                missing.len(),
                sorts.len(),
                first.join(", ")
            )),
            [] if self.share(steps) < LEAST => Some(format!(
                "only {:.1} % of the steps were accesses with MPRV and MXR",
                self.share(steps)
            )),
            [] => None,
        }
    }

    /// A title line and the counts of each name.
    pub fn text(&self, steps: u64) -> (String, Vec<String>) {
        let names = KINDS
            .iter()
            .chain(&MODES)
            .chain(&SATPS)
            .chain(&MASKS)
            .chain(&FATES);
        let counts = names.map(|name| format!("{name}: {}", self.count(name)));
        let title = format!(
            "{} steps ({:.1} %) are loads, stores and swaps in M with MPRV and MXR set",
            self.count(""),
            self.share(steps)
        );
        (title, counts.collect())
    }
}

#[cfg(test)]
mod tests {
    use super::*;
    use crate::state::{MPRV, MXR, PMM};
    use formats::{i, r, s, AMO, LOAD, OP, STORE};
    use sporhulma::word::*;

    /// M with MPRV and MXR, MPP U, Sv39 and 16 bits masked.
    fn hart() -> Hart {
        let mut hart = Hart::fresh();
        hart.x[1] = 0xABCD_0000_0000_5000;
        hart.x[2] = 0x5000;
        hart.rest[MSTATUS] |= MPRV | MXR;
        hart.rest[SATP] = SV39;
        hart.rest[SENVCFG] = PMM;
        hart
    }

    #[test]
    fn an_access_is_read_from_its_word() {
        let hart = hart();
        let read = |word| access(&hart, word).map(|access| (access.kind, access.address));
        let offset = -8_i64 as u64;
        assert_eq!(read(i(LOAD, 3, 3, 2, offset)), Some((Kind::Load, 0x4FF8)));
        assert_eq!(read(s(STORE, 0, 2, 3, offset)), Some((Kind::Store, 0x4FF8)));
        let address = hart.x[1];
        assert_eq!(read(r(AMO, 3, 0x24, 3, 1, 4)), Some((Kind::Swap, address)));
        assert_eq!(read(r(AMO, 3, 0x04, 3, 1, 4)), None);
        assert_eq!(read(r(OP, 0, 0, 3, 1, 2)), None);
    }

    /// The sort of a doubleword's load through a register.
    fn noted(hart: &Hart, through: u32, trapped: bool) -> Vec<Sort> {
        let mut lifted = Lifted::default();
        lifted.note(hart, i(LOAD, 3, 3, through, 0), trapped);
        lifted.counts.into_keys().collect()
    }

    #[test]
    fn an_access_is_counted_where_masking_is_lifted() {
        let mut hart = hart();
        let sort = ["load", "MPP U", "Sv39", "PMM 3"];
        let with = |fate| [[sort[0], sort[1], sort[2], sort[3], fate]];
        assert_eq!(noted(&hart, 1, true), with("tagged"));
        assert_eq!(noted(&hart, 2, true), with("refused"));
        assert_eq!(noted(&hart, 2, false), with("granted"));
        hart.x[2] = 1 << 45;
        assert_eq!(noted(&hart, 2, true), with("not canonical"));
        for bit in [MPRV, MXR] {
            let mut other = hart;
            other.rest[MSTATUS] ^= bit;
            assert!(noted(&other, 1, true).is_empty());
        }
        hart.rest[MODE] = 1;
        assert!(noted(&hart, 1, true).is_empty());
    }

    /// 36 tagged, 18 not canonical, 54 refused, 36 loads and stores and 6 swaps granted.
    #[test]
    fn every_sort_is_asked_for() {
        assert_eq!(sorts().len(), 150);
        let complaint = Lifted::default().complaint(1).expect("nothing was seen");
        assert!(complaint.starts_with("150 of 150 sorts"));
        let mut all = Lifted::default();
        all.counts.extend(sorts().into_iter().map(|sort| (sort, 1)));
        assert_eq!(all.complaint(1500), None);
        let complaint = all.complaint(15_000).expect("they are rare");
        assert!(complaint.starts_with("only 1.0 % of the steps"));
    }
}
