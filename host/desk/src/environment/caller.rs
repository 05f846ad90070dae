//! The program that called, as a monitor sees it: its registers, and memory where its own loads and stores would go.

use super::semihosting;
use crate::map::{PageMap, PAGE};
use crate::names::{M, S, U};
use crate::place::{follow, Access, Kind};
use crate::state::State;
use formats::csr::field::{MPP_SHIFT, SPP};
use sporhulma::{word, Hart, BASE};

/// Bytes that the environment wrote, and at which index of memory.
pub type Write = (usize, Vec<u8>);

/// An address at which the caller has no byte to read or to write.
#[derive(Debug, PartialEq)]
pub struct Fault;

/// The state just after an ECALL or EBREAK trapped, and the caller in it.
pub struct Caller<'a> {
    state: &'a mut State,
    map: &'a PageMap,
    /// The hart with the mode and the pc that the trap saved: so its accesses are the caller's.
    hart: Hart,
    /// What was written so far.
    pub writes: Vec<Write>,
}

impl<'a> Caller<'a> {
    pub fn new(state: &'a mut State, map: &'a PageMap) -> Caller<'a> {
        let mut hart = state.hart;
        let mstatus = hart.rest[word::MSTATUS];
        (hart.rest[word::MODE], hart.rest[word::PC]) = match state.mode() {
            M => (mstatus >> MPP_SHIFT & 3, hart.rest[word::MEPC]),
            _ => (
                if mstatus & SPP == 0 { U } else { S },
                hart.rest[word::SEPC],
            ),
        };
        Caller {
            state,
            map,
            hart,
            writes: Vec::new(),
        }
    }

    /// Where the call stands.
    fn pc(&self) -> u64 {
        self.hart.rest[word::PC]
    }

    /// A register by its number.
    pub fn x(&self, number: usize) -> u64 {
        self.hart.x[number]
    }

    /// What the caller finds in a0.
    pub fn answer(&mut self, value: u64) {
        self.state.hart.x[10] = value;
    }

    /// Whether the EBREAK that trapped is a semihosting call.
    pub fn semihosts(&self) -> bool {
        let (before, behind) = (self.pc().wrapping_sub(4), self.pc().wrapping_add(4));
        semihosting::is_call(self.fetched(before), self.fetched(behind))
    }

    /// The word that a fetch of the caller would read.
    fn fetched(&self, address: u64) -> Option<u32> {
        let physical = self.physical(Kind::Fetch, 4, address).ok()?;
        Some(self.state.bytes(physical, 4) as u32)
    }

    /// Bytes, as loads of the caller would read them. All of them must be there.
    pub fn read(&self, address: u64, length: u64) -> Result<Vec<u8>, Fault> {
        let places = self.places(Kind::Load, address, length)?;
        let bytes = |(at, length): (usize, usize)| &self.state.mem[at..at + length];
        Ok(places.into_iter().flat_map(bytes).copied().collect())
    }

    /// Eight bytes as a number.
    pub fn word(&self, address: u64) -> Result<u64, Fault> {
        let bytes = self.read(address, 8)?;
        Ok(bytes
            .iter()
            .rev()
            .fold(0, |sum, &byte| sum << 8 | u64::from(byte)))
    }

    /// Whether stores of the caller could write all of these bytes.
    pub fn writable(&self, address: u64, length: u64) -> bool {
        self.places(Kind::Store, address, length).is_ok()
    }

    /// Writes bytes, as stores of the caller would: all of them, or none where one has no place.
    pub fn write(&mut self, address: u64, bytes: &[u8]) -> Result<(), Fault> {
        let mut rest = bytes;
        for (at, length) in self.places(Kind::Store, address, bytes.len() as u64)? {
            let (now, later) = rest.split_at(length);
            self.state.mem[at..at + length].copy_from_slice(now);
            self.writes.push((at, now.to_vec()));
            rest = later;
        }
        Ok(())
    }

    fn physical(&self, kind: Kind, width: u64, address: u64) -> Result<u64, Fault> {
        let access = Access {
            kind,
            width,
            address,
        };
        let path = follow(&self.hart, self.state.mem.len() as u64, self.map, access);
        path.end.map_err(|_| Fault)
    }

    /// Where bytes of the caller lie, as stretches of memory (index and length). The rules look at an address's page, so
    /// that one byte of each page answers for all of it.
    fn places(&self, kind: Kind, address: u64, length: u64) -> Result<Vec<(usize, usize)>, Fault> {
        let (mut at, mut left) = (address, length);
        let mut places = Vec::new();
        while left > 0 {
            let here = (PAGE - at % PAGE).min(left);
            let physical = self.physical(kind, 1, at)?;
            places.push(((physical - BASE) as usize, here as usize));
            left -= here;
            at = match left {
                0 => break,
                // No buffer goes on at address 0.
                _ => at.checked_add(here).ok_or(Fault)?,
            };
        }
        Ok(places)
    }
}
