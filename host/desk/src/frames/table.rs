//! Which entries of a map name which frames of memory for a user program, and what can be done there.
//!
//! The rules are not told a second time here: `place` is asked, access by access, for a hart in U under Sv39. An entry that
//! rule 5 (valid) or rule 6 (the U bit) refuses names nothing. Every other names its frame, as the theorem counts it,
//! whatever rules 7 and 8 leave to be done there.

use crate::explain::shadow_stack_on;
use crate::map::{Entry, PageMap, A, D, PAGE};
use crate::names::U;
use crate::place::{follow, Access, Kind, Refused};
use formats::csr::field::{MXR, SSE, SV39};
use sporhulma::{word, Hart, BASE};
use std::collections::BTreeMap;
use std::ops::Range;

/// Every kind of access, in the order in which a table shows them.
const KINDS: [Kind; 6] = [
    Kind::Load,
    Kind::Store,
    Kind::Fetch,
    Kind::Push,
    Kind::Pop,
    Kind::Swap,
];

/// What an access may lack that an entry is there for, and what would give it.
type Lack = (&'static str, fn(&mut Hart, &mut Entry));
const LACKS: [Lack; 4] = [
    ("A is 0", |_, entry| entry.leaf |= A),
    ("D is 0", |_, entry| entry.leaf |= D),
    ("mstatus.MXR is 0", |hart, _| {
        hart.rest[word::MSTATUS] |= MXR
    }),
    ("senvcfg.SSE is 0", |hart, _| {
        hart.rest[word::SENVCFG] |= SSE
    }),
];

/// A valid entry with its U bit, and what a user program can do through it.
pub struct Naming {
    pub entry: Entry,
    pub usable: Vec<Kind>,
    /// What it could do if it lacked nothing, and what it lacks.
    pub unusable: Vec<(Kind, Vec<&'static str>)>,
    /// Whether the entry is valid only by menvcfg.SSE.
    pub shadow: bool,
}

/// A frame of memory that is named, and by what.
pub struct Frame {
    pub address: u64,
    pub by: Vec<Naming>,
}

/// An entry that names nothing for a user program.
pub struct Nothing {
    pub entry: Entry,
    pub refused: Refused,
    /// Whether it would be valid, with its U bit, if menvcfg.SSE were 1.
    pub with_sse: bool,
    /// The lines of the map that name its frame all the same.
    pub named_by: Vec<usize>,
}

/// All that a map names and all that it does not.
pub struct Table {
    /// The hart by whose settings it is so, in U under Sv39.
    hart: Hart,
    /// Bytes of memory.
    pub length: u64,
    pub named: Vec<Frame>,
    /// The rest of memory, as physical addresses.
    pub unnamed: Vec<Range<u64>>,
    /// Entries that name no byte, since their frame lies outside memory.
    pub outside: Vec<Entry>,
    pub nothing: Vec<Nothing>,
}

impl Table {
    /// By the settings of a hart; its mode and its satp are not looked at.
    pub fn new(hart: &Hart, length: u64, map: &PageMap) -> Table {
        let hart = in_user_mode(hart);
        let memory = BASE..BASE + length;
        let mut named: BTreeMap<u64, Vec<Naming>> = BTreeMap::new();
        let (mut outside, mut without) = (Vec::new(), Vec::new());
        for &entry in &map.entries {
            match refused_to_user(&hart, entry) {
                Some(refused) => without.push((entry, refused)),
                None if memory.contains(&entry.frame()) => {
                    let by = named.entry(entry.frame()).or_default();
                    by.push(Naming::new(&hart, entry));
                }
                None => outside.push(entry),
            }
        }
        let nothing = without.into_iter().map(|(entry, refused)| Nothing {
            with_sse: refused_to_user(&with_sse(&hart), entry).is_none(),
            named_by: lines(named.get(&entry.frame())),
            entry,
            refused,
        });
        Table {
            nothing: nothing.collect(),
            unnamed: gaps(&memory, named.keys().copied()),
            named: named
                .into_iter()
                .map(|(address, by)| Frame { address, by })
                .collect(),
            hart,
            length,
            outside,
        }
    }

    /// menvcfg.SSE, by which an entry with W alone is valid.
    pub fn sse(&self) -> u64 {
        (self.hart.rest[word::MENVCFG] & SSE != 0).into()
    }

    /// senvcfg.SSE as it acts: whether the shadow stack is on in U.
    pub fn shadow_stack(&self) -> u64 {
        shadow_stack_on(&self.hart).into()
    }

    pub fn mxr(&self) -> u64 {
        (self.hart.rest[word::MSTATUS] & MXR != 0).into()
    }
}

impl Naming {
    fn new(hart: &Hart, entry: Entry) -> Naming {
        let usable = |kind: &Kind| permitted(hart, entry, *kind);
        let unusable = |kind: Kind| Some((kind, lacks(hart, entry, kind)?));
        Naming {
            entry,
            usable: KINDS.into_iter().filter(usable).collect(),
            unusable: KINDS.into_iter().filter_map(unusable).collect(),
            shadow: entry.rwx() == "w",
        }
    }
}

fn in_user_mode(hart: &Hart) -> Hart {
    let mut hart = *hart;
    hart.rest[word::MODE] = U;
    hart.rest[word::SATP] = SV39;
    hart
}

fn with_sse(hart: &Hart) -> Hart {
    let mut hart = *hart;
    hart.rest[word::MENVCFG] |= SSE;
    hart
}

/// What refuses an access to the first bytes of an entry's page. Rule 9 is left out, and so memory has no length here: where the
/// frame lies is told apart.
fn refusal(hart: &Hart, entry: Entry, kind: Kind) -> Option<Refused> {
    let map = PageMap {
        entries: vec![entry],
        words: vec![entry.page, entry.leaf],
    };
    let access = Access {
        kind,
        width: 4,
        address: entry.address(),
    };
    let path = follow(hart, 0, &map, access);
    path.end.err().filter(|refused| refused.rule < 9)
}

/// Why an entry names nothing for a user program; rules 5 and 6 ask the same of every kind of access.
fn refused_to_user(hart: &Hart, entry: Entry) -> Option<Refused> {
    refusal(hart, entry, Kind::Load).filter(|refused| refused.rule <= 6)
}

/// Whether a user program can make the access, wherever the frame lies. With the shadow stack off it makes no shadow access at all.
fn permitted(hart: &Hart, entry: Entry, kind: Kind) -> bool {
    (!kind.is_shadow() || shadow_stack_on(hart)) && refusal(hart, entry, kind).is_none()
}

/// Of an access that is not permitted, but would be if nothing were lacking: each thing without which it is not, whatever else is
/// given.
fn lacks(hart: &Hart, entry: Entry, kind: Kind) -> Option<Vec<&'static str>> {
    let permitted_but_for = |missing: Option<&str>| {
        let (mut hart, mut entry) = (*hart, entry);
        for (_, give) in LACKS.iter().filter(|lack| Some(lack.0) != missing) {
            give(&mut hart, &mut entry);
        }
        permitted(&hart, entry, kind)
    };
    if permitted(hart, entry, kind) || !permitted_but_for(None) {
        return None;
    }
    let names = LACKS.iter().map(|lack| lack.0);
    Some(
        names
            .filter(|&name| !permitted_but_for(Some(name)))
            .collect(),
    )
}

fn lines(by: Option<&Vec<Naming>>) -> Vec<usize> {
    by.into_iter()
        .flatten()
        .map(|naming| naming.entry.line)
        .collect()
}

/// What of memory lies between frames, which are given in rising order.
fn gaps(memory: &Range<u64>, frames: impl Iterator<Item = u64>) -> Vec<Range<u64>> {
    let mut from = memory.start;
    let mut gaps = Vec::new();
    for frame in frames.chain([memory.end]) {
        if from < frame {
            gaps.push(from..frame);
        }
        from = frame + PAGE;
    }
    gaps
}

#[cfg(test)]
mod tests {
    use super::*;

    fn gaps_of(frames: &[u64]) -> Vec<(u64, u64)> {
        let memory = BASE..BASE + 8 * PAGE;
        let frames = frames.iter().map(|n| BASE + n * PAGE);
        let number = |address: u64| (address - BASE) / PAGE;
        gaps(&memory, frames)
            .into_iter()
            .map(|gap| (number(gap.start), number(gap.end)))
            .collect()
    }

    #[test]
    fn gaps_are_what_no_frame_takes() {
        assert_eq!(gaps_of(&[]), [(0, 8)]);
        assert_eq!(gaps_of(&[0, 7]), [(1, 7)]);
        assert_eq!(gaps_of(&[1, 2, 5]), [(0, 1), (3, 5), (6, 8)]);
        assert_eq!(gaps_of(&[0, 1, 2, 3, 4, 5, 6, 7]), []);
    }

    /// What an access lacks is told whole, and nothing that is not lacking.
    #[test]
    #[rustfmt::skip]
    fn lacks_are_told_whole() {
        for (flags, kind, expected) in [
            ("r u !a", Kind::Load, Some(vec!["A is 0"])),
            ("rw u !ad", Kind::Store, Some(vec!["A is 0", "D is 0"])),
            ("x u !a", Kind::Load, Some(vec!["A is 0", "mstatus.MXR is 0"])),
            ("rx u", Kind::Load, None),
            ("r u", Kind::Store, None),
            ("shadow u !d", Kind::Push, Some(vec!["D is 0", "senvcfg.SSE is 0"])),
            ("shadow u !d", Kind::Pop, Some(vec!["senvcfg.SSE is 0"])),
            ("shadow u", Kind::Store, None),
        ] {
            let map = PageMap::parse("m", &format!("0x1000 -> 0x80000000 {flags}")).unwrap();
            let hart = with_sse(&in_user_mode(&Hart::fresh()));
            assert_eq!(lacks(&hart, map.entries[0], kind), expected, "{kind:?} {flags}");
        }
    }
}
