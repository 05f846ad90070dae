//! Whether each protection that is on at the start of a run does anything in it.
//!
//! It is known from the steps themselves: a push or pop-check that is met, a landing pad that is looked for, an access by the map,
//! an address that masking changes. As long as one of these has not been seen, the hart goes in short stretches, and the desk
//! looks at each word before it is run; after that it goes at full speed. In a mode in which the shadow stack is not active it
//! goes on looking, and counts what is met there.

use crate::explain::{access, family, pads_on, shadow_stack_on};
use crate::map::{PageMap, PAGE};
use crate::names::{M, U};
use crate::state::State;
use formats::csr::field::{LPE, MLPE, MPRV, PMM, SSE, SV39};
use sporhulma::{word, Answer, Hart, BASE};

/// Pushes and pop-checks that did nothing.
#[derive(Clone, Copy, Default, Debug, PartialEq)]
pub struct Count {
    pub pushes: u64,
    pub checks: u64,
}

/// A protection that is on, and whether it was seen to do anything.
#[derive(Clone, Copy, Debug, PartialEq)]
pub enum Seen {
    Off,
    NotYet,
    Yes,
}

impl Seen {
    fn asked(on: bool) -> Seen {
        if on {
            Seen::NotYet
        } else {
            Seen::Off
        }
    }
}

#[derive(Clone, Debug)]
pub struct Watch {
    /// A push or pop-check that was active.
    pub shadow: Seen,
    /// Those that did nothing, by the mode (M, S, U as 3, 1, 0) in which they were met.
    pub idle: [Count; 4],
    /// A step at which ELP expected a pad.
    pub pads: Seen,
    /// An access under Sv39.
    pub map: Seen,
    /// An access whose address masking changed.
    pub masking: Seen,
    /// The page that was fetched from last.
    page: Option<Page>,
}

/// Where a page of code lies in a mode and by a satp: whether a fetch goes through depends on nothing else of the hart.
#[derive(Clone, Copy, Debug)]
struct Page {
    address: u64,
    regime: [u64; 2],
    physical: u64,
}

/// What the next step shows if it goes through, and how many steps can be made in one call.
#[derive(Default)]
pub struct Ahead {
    pub steps: u64,
    active: bool,
    idle: Option<(u64, bool)>,
    pad: bool,
    mapped: bool,
    masked: bool,
}

impl Watch {
    /// What is on in the hart with which the run begins.
    pub fn new(hart: &Hart, map: &PageMap) -> Watch {
        let rest = &hart.rest;
        let any = |bits: u64| (rest[word::MENVCFG] | rest[word::SENVCFG]) & bits != 0;
        let masks = rest[word::MENVCFG] | rest[word::SENVCFG] | rest[word::MSECCFG];
        Watch {
            shadow: Seen::asked(any(SSE)),
            idle: [Count::default(); 4],
            pads: Seen::asked(any(LPE) || rest[word::MSECCFG] & MLPE != 0),
            map: Seen::asked(!map.entries.is_empty()),
            masking: Seen::asked(masks & PMM != 0),
            page: None,
        }
    }

    /// What to look for in the next step; none where nothing can be seen up to the next trap.
    pub fn ahead(&mut self, state: &State, map: &PageMap) -> Option<Ahead> {
        if !self.looks(&state.hart) {
            return None;
        }
        let hart = &state.hart;
        let mut ahead = Ahead {
            steps: 1,
            mapped: sv39(hart) && state.mode() != M && state.given.is_none(),
            ..Ahead::default()
        };
        let next = match state.given {
            Some(word) => Some((None, word)),
            None => self
                .fetched(state, map)
                .map(|(index, word)| (Some(index), word)),
        };
        let Some((index, word)) = next else {
            return Some(ahead);
        };
        ahead.pad = hart.rest[word::ELP] == 1 && pads_on(hart);
        let class = class(word);
        match class {
            Class::Shadow if shadow_stack_on(hart) => ahead.active = true,
            Class::Shadow => ahead.idle = shadow(word).map(|push| (state.mode(), push)),
            _ => (),
        }
        let looked_at = self.looks_at_accesses(hart);
        if looked_at && !matches!(class, Class::Plain | Class::Leaves) {
            if let Some(access) = access(state, word) {
                let path = state.path(map, access);
                ahead.masked = path.transformed != access.address;
                ahead.mapped |= path.sv39;
            }
        }
        // A given word is a step of its own.
        ahead.steps = index.map_or(1, |index| stretch(&state.mem, index, looked_at));
        Some(ahead)
    }

    /// What a call showed that was made as `ahead` said.
    pub fn saw(&mut self, ahead: &Ahead, answer: Answer) {
        // A trap of the first step: it may have come before that which was to be seen.
        let refused = answer.trapped && answer.count == 1;
        let faulted = refused && [4, 5, 6, 7, 13, 15].contains(&answer.cause);
        let see = |seen: &mut Seen, now: bool| {
            if now && *seen == Seen::NotYet {
                *seen = Seen::Yes;
            }
        };
        see(&mut self.pads, ahead.pad);
        see(&mut self.map, ahead.mapped);
        see(&mut self.masking, ahead.masked && (!refused || faulted));
        let mismatch = refused && answer.cause == 18 && !ahead.pad;
        see(
            &mut self.shadow,
            ahead.active && (!refused || faulted || mismatch),
        );
        if let (Some((mode, push)), false, true) = (ahead.idle, refused, self.shadow != Seen::Off) {
            let count = &mut self.idle[mode as usize];
            match push {
                true => count.pushes += 1,
                false => count.checks += 1,
            }
        }
    }

    /// Whether something may be seen before the next trap. From U nothing but a trap leads out, or changes what is on.
    fn looks(&self, hart: &Hart) -> bool {
        let user = hart.rest[word::MODE] == U;
        let shadow = match self.shadow {
            Seen::Off => false,
            Seen::NotYet => true,
            Seen::Yes => !(user && shadow_stack_on(hart)),
        };
        let pads = self.pads == Seen::NotYet && (!user || pads_on(hart));
        let map = self.map == Seen::NotYet && (!user || sv39(hart));
        let masked = hart.rest[word::SENVCFG] & PMM != 0;
        let masking = self.masking == Seen::NotYet && (!user || masked);
        shadow || pads || map || masking
    }

    /// How many steps surely go from word to word, each at the next address, unless one traps.
    pub fn line(&mut self, state: &State, map: &PageMap) -> u64 {
        match self.fetched(state, map).filter(|_| state.given.is_none()) {
            Some((index, _)) => stretch(&state.mem, index, false),
            None => 1,
        }
    }

    /// The word that the next step fetches, and its index in memory.
    pub(super) fn fetched(&mut self, state: &State, map: &PageMap) -> Option<(usize, u32)> {
        let physical = match state.mode() == M || !sv39(&state.hart) {
            true => state.pc(),
            false => self.translated(state, map)?,
        };
        let index = usize::try_from(physical.checked_sub(BASE)?).ok()?;
        Some((index, at(&state.mem, index)?))
    }

    /// Where the map has the next word; what was found last is kept, since words follow each other.
    fn translated(&mut self, state: &State, map: &PageMap) -> Option<u64> {
        let regime = [word::MODE, word::SATP].map(|index| state.hart.rest[index]);
        let (address, offset) = (state.pc() & !(PAGE - 1), state.pc() % PAGE);
        match self.page {
            Some(page) if page.address == address && page.regime == regime => {
                Some(page.physical + offset)
            }
            _ => {
                let physical = state.fetch(map).end.ok()? - offset;
                self.page = Some(Page {
                    address,
                    regime,
                    physical,
                });
                Some(physical + offset)
            }
        }
    }

    /// Whether loads and stores are looked at too: for their address, or for a map that only MPRV uses.
    fn looks_at_accesses(&self, hart: &Hart) -> bool {
        let mprv = hart.rest[word::MSTATUS] & MPRV != 0;
        self.masking == Seen::NotYet || (self.map == Seen::NotYet && mprv)
    }
}

fn sv39(hart: &Hart) -> bool {
    hart.rest[word::SATP] == SV39
}

/// What a word is to the watch.
#[derive(Clone, Copy, PartialEq)]
enum Class {
    /// It goes on to the next word, and changes registers only.
    Plain,
    Load,
    Store,
    /// A jump or a branch.
    Leaves,
    /// A push or pop-check.
    Shadow,
    Other,
}

/// By the major opcode; a word that is illegal traps, which ends a call too.
fn class(word: u32) -> Class {
    match word & 0x7f {
        0x37 | 0x17 | 0x13 | 0x1b | 0x33 | 0x3b | 0x0f => Class::Plain,
        0x03 => Class::Load,
        0x23 => Class::Store,
        0x63 | 0x67 | 0x6f => Class::Leaves,
        0x73 if shadow(word).is_some() => Class::Shadow,
        _ => Class::Other,
    }
}

/// Whether a word is a push (true) or a pop-check (false).
fn shadow(word: u32) -> Option<bool> {
    match sporhulma::family(word) {
        family::PUSH => Some(true),
        family::POP => Some(false),
        _ => None,
    }
}

fn at(mem: &[u8], index: usize) -> Option<u32> {
    let bytes = mem.get(index..index.checked_add(4)?)?;
    Some(u32::from_le_bytes(bytes.try_into().ok()?))
}

/// How many steps from the word at `index` on are surely these words one after the other, and show nothing but by the first of
/// them: up to a word that can leave the line, and up to a store, behind which the words may be others. Never over a page's end.
fn stretch(mem: &[u8], index: usize, loads: bool) -> u64 {
    let left = (PAGE as usize - index % PAGE as usize) / 4;
    let mut steps = 0;
    for word in mem[index..].chunks_exact(4).take(left) {
        let word = u32::from_le_bytes(word.try_into().unwrap_or_default());
        let ends = match class(word) {
            Class::Plain => false,
            Class::Load if !loads => false,
            Class::Store if !loads => true,
            Class::Leaves => true,
            // To be the first of its own stretch.
            _ if steps > 0 => break,
            _ => true,
        };
        steps += 1;
        if ends {
            break;
        }
    }
    steps.max(1)
}
