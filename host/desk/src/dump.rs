//! Bytes that are shown at the end of a run: where they are asked for, what lies there, and how that is told.
//!
//! By a symbol or a virtual address they are found as a load of the program would find them, so a page may be missing; that is
//! told in their place, and the others are shown.

use crate::drive::{End, Stop};
use crate::facts::{hex, object};
use crate::map::{PageMap, PAGE};
use crate::names::mode_name;
use crate::number::{number, size};
use crate::place::{follow, Access, Kind, Path};
use crate::symbols::{Place, Symbols};
use serde_json::Value;
use sporhulma::BASE;

/// A stretch of bytes as it was asked for.
pub struct Dump {
    asked: String,
    at: At,
    length: u64,
}

enum At {
    Physical(u64),
    Program(Place),
}

/// Bytes with one answer: those that follow each other in memory, or those that no load finds, for one reason.
struct Piece {
    /// As it was asked for: physical, or the program's.
    address: u64,
    length: u64,
    found: Result<u64, String>,
}

impl Dump {
    /// WHERE:LENGTH, with an address, v: and an address, or a symbol before the last colon.
    pub fn parse(asked: &str, memory: u64, symbols: &Symbols) -> Result<Dump, String> {
        let Some((place, length)) = asked.rsplit_once(':').filter(|(place, _)| *place != "v")
        else {
            return Err(format!(
                "'{asked}' has no length; write for instance 0x80001000:64, v:0x20000:64 or table:64"
            ));
        };
        let (at, length) = (at(place, symbols)?, size(length)?);
        if length == 0 {
            return Err(format!("'{asked}' has length 0; try 1 or more"));
        }
        at.holds(asked, length, memory)?;
        Ok(Dump {
            asked: asked.into(),
            at,
            length,
        })
    }

    /// What lies there at the end of a run.
    fn pieces(&self, end: &End, map: &PageMap) -> Vec<Piece> {
        let address = match self.at {
            At::Physical(address) => {
                return vec![Piece {
                    address,
                    length: self.length,
                    found: Ok(address),
                }]
            }
            At::Program(place) => place.address(load(end, map, 0).space()),
        };
        let mut pieces: Vec<Piece> = Vec::new();
        let mut done = 0;
        while done < self.length {
            let address = address + done;
            let length = (PAGE - address % PAGE).min(self.length - done);
            let found = found(&load(end, map, address));
            done += length;
            match pieces.last_mut() {
                Some(last) if last.goes_on(&found) => last.length += length,
                _ => pieces.push(Piece {
                    address,
                    length,
                    found,
                }),
            }
        }
        pieces
    }

    pub fn text(&self, end: &End, map: &PageMap, symbols: &Symbols) -> String {
        let space = load(end, map, 0).space();
        let told = |piece: &Piece| {
            let (address, length) = (piece.address, piece.length);
            let name = symbols.shown(address, space);
            match (&piece.found, &self.at) {
                (Ok(physical), At::Physical(_)) => table(address, bytes(end, *physical, length)),
                (Ok(physical), _) => {
                    let rows = table(address, bytes(end, *physical, length));
                    format!("{name}, physical {physical:#x}:\n{rows}")
                }
                (Err(why), _) => format!("{name} to {:#x}: {why}\n", address + (length - 1)),
            }
        };
        self.pieces(end, map).iter().map(told).collect()
    }

    pub fn json(&self, end: &End, map: &PageMap) -> Vec<Value> {
        let told = |piece: &Piece| {
            let text = |bytes: &[u8]| bytes.iter().map(|byte| format!("{byte:02x}")).collect();
            let (physical, bytes, why) = match &piece.found {
                Ok(physical) => {
                    let bytes: String = text(bytes(end, *physical, piece.length));
                    (hex(*physical), Value::from(bytes), Value::Null)
                }
                Err(why) => (Value::Null, Value::Null, Value::from(why.as_str())),
            };
            object([
                ("asked", Value::from(self.asked.as_str())),
                ("address", hex(piece.address)),
                ("length", Value::from(piece.length)),
                ("physical", physical),
                ("bytes", bytes),
                ("refused", why),
            ])
        };
        self.pieces(end, map).iter().map(told).collect()
    }
}

impl Piece {
    /// Whether what was found on the next page belongs to this piece too.
    fn goes_on(&self, next: &Result<u64, String>) -> bool {
        match (&self.found, next) {
            (Ok(physical), Ok(next)) => physical + self.length == *next,
            (Err(why), Err(next)) => why == next,
            _ => false,
        }
    }
}

fn at(place: &str, symbols: &Symbols) -> Result<At, String> {
    match place.starts_with(|first: char| first.is_ascii_digit()) {
        true => number(place).map(At::Physical),
        false => symbols.place(place).map(At::Program),
    }
}

impl At {
    /// Whether so many bytes can be there at all.
    fn holds(&self, asked: &str, length: u64, memory: u64) -> Result<(), String> {
        let (end, last) = (BASE + memory, BASE + memory - 1);
        let past = |address: u64| address.checked_add(length).is_none();
        match *self {
            At::Physical(address) if (BASE..end).contains(&address) && length <= end - address => {
                Ok(())
            }
            At::Physical(_) => Err(format!(
                "{asked} is not all in memory, which is {BASE:#x} to {last:#x}; an address of the program is v:ADDRESS"
            )),
            At::Program(_) if length > memory => Err(format!(
                "{asked} is more than memory has; show {memory} bytes or less"
            )),
            At::Program(place) if past(place.seen) || past(place.physical) => {
                Err(format!("{asked} goes past the last address; show less"))
            }
            At::Program(_) => Ok(()),
        }
    }
}

/// How a load of the byte at an address would go, and with it those up to the page's end: by the program's hart, before a
/// trap that ended the run took it elsewhere.
fn load(end: &End, map: &PageMap, address: u64) -> Path {
    let hart = match (end.stop, &end.before) {
        (Stop::Trap | Stop::Stuck | Stop::Exit(_), Some(before)) => &before.hart,
        _ => &end.after.hart,
    };
    let access = Access {
        kind: Kind::Load,
        width: 1,
        address,
    };
    follow(hart, end.after.mem.len() as u64, map, access)
}

/// The physical address, or why there is none.
fn found(load: &Path) -> Result<u64, String> {
    load.end.clone().map_err(|refused| {
        let mode = mode_name(load.mode);
        format!(
            "a load in {mode} is refused by rule {}: {}",
            refused.rule, refused.why
        )
    })
}

fn bytes(end: &End, physical: u64, length: u64) -> &[u8] {
    let start = (physical - BASE) as usize;
    &end.after.mem[start..start + length as usize]
}

/// Sixteen bytes a line with their address, in hex and as text.
fn table(address: u64, bytes: &[u8]) -> String {
    let line = |(i, row): (usize, &[u8])| {
        let hex: Vec<String> = row.iter().map(|byte| format!("{byte:02x}")).collect();
        let shown = |&byte: &u8| match byte {
            0x20..=0x7e => byte as char,
            _ => '.',
        };
        let text: String = row.iter().map(shown).collect();
        let at = address + 16 * i as u64;
        format!("{at:#x}  {:<47}  |{text}|\n", hex.join(" "))
    };
    bytes.chunks(16).enumerate().map(line).collect()
}
