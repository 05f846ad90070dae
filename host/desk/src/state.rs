//! A hart with its memory and its map, and what stands at an address of it.

use crate::map::PageMap;
use crate::names::{mode_name, M};
use crate::place::{follow, Access, Kind, Path};
use crate::symbols::{Space, Symbols};
use formats::csr::field::SV39;
use sporhulma::{word, Answer, Hart, BASE};

/// A hart and its memory at one moment.
#[derive(Clone)]
pub struct State {
    pub hart: Hart,
    pub mem: Vec<u8>,
    /// A word that the next step takes and does not fetch (`--word`).
    pub given: Option<u32>,
}

impl State {
    pub fn pc(&self) -> u64 {
        self.hart.rest[word::PC]
    }

    pub fn mode(&self) -> u64 {
        self.hart.rest[word::MODE]
    }

    /// Which addresses the hart fetches from, and so calls and returns to.
    pub fn space(&self) -> Space {
        match self.mode() != M && self.hart.rest[word::SATP] == SV39 {
            true => Space::Virtual,
            false => Space::Physical,
        }
    }

    /// Steps of the proved hart in one call: the given word's alone, or as many as the budget and the first trap allow.
    pub fn steps(&mut self, map: &PageMap, budget: u64) -> Answer {
        let given = self.given.take_if(|_| budget > 0);
        match given {
            Some(word) => sporhulma::step_word(&mut self.hart, &mut self.mem, &map.words, word),
            None => sporhulma::run(&mut self.hart, &mut self.mem, &map.words, budget),
        }
    }

    /// How an access would go.
    pub fn path(&self, map: &PageMap, access: Access) -> Path {
        follow(&self.hart, self.mem.len() as u64, map, access)
    }

    /// How the next step's fetch goes.
    pub fn fetch(&self, map: &PageMap) -> Path {
        let fetch = Access {
            kind: Kind::Fetch,
            width: 4,
            address: self.pc(),
        };
        self.path(map, fetch)
    }

    /// The word that the next step takes, or the path of the fetch that is refused.
    pub fn next_word(&self, map: &PageMap) -> Result<u32, Box<Path>> {
        if let Some(word) = self.given {
            return Ok(word);
        }
        let path = self.fetch(map);
        match path.end {
            Ok(physical) => Ok(self.bytes(physical, 4) as u32),
            Err(_) => Err(Box::new(path)),
        }
    }

    /// Up to eight bytes at a physical address in memory, as a little-endian number.
    pub fn bytes(&self, physical: u64, width: usize) -> u64 {
        let at = (physical - BASE) as usize;
        let number = |sum, &byte| sum << 8 | u64::from(byte);
        self.mem[at..at + width].iter().rev().fold(0, number)
    }

    /// The next instruction as address with its name, mode, word and text.
    pub fn next_text(&self, map: &PageMap, symbols: &Symbols) -> String {
        let place = symbols.told(self.pc(), self.space());
        let at = format!("{place} in {}", mode_name(self.mode()));
        match self.next_word(map) {
            Ok(word) => {
                let text = disasm::text(word, self.pc());
                let given = self.given.map_or("", |_| " (given, not fetched)");
                format!("{at}: {word:08x}  {text}{given}")
            }
            Err(_) => format!("{at}: no word can be fetched there"),
        }
    }
}
