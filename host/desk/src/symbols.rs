//! What addresses are called: the symbols and the lines of source that an ELF file gives.
//!
//! A program's symbols are its virtual addresses. Where the hart does not translate, an address is physical, and is named by the segment
//! that lies there.

use crate::elf::{Elf, Segment};
use crate::facts::Facts;
use crate::failure::Failure;
use crate::names::nearest;
use crate::number::number;
use addr2line::gimli::{EndianRcSlice, RunTimeEndian};
use addr2line::Context;
use object::{Object, ObjectSymbol, SymbolKind, SymbolSection};
use serde_json::Value;
use std::path::{Path, PathBuf};

/// Bytes of a call: every instruction of this hart has four.
const CALL: u64 = 4;

/// Which addresses are meant.
#[derive(Clone, Copy, Debug, PartialEq, Eq, Hash)]
pub enum Space {
    /// Those of the program, translated by the map.
    Virtual,
    /// Those of memory.
    Physical,
}

/// A place of the program. Where the hart does not translate, a symbol lies where its segment was put; an address is what it is.
#[derive(Clone, Copy, Debug, PartialEq)]
pub struct Place {
    /// As the program sees it.
    pub seen: u64,
    pub physical: u64,
}

impl Place {
    pub fn address(self, space: Space) -> u64 {
        match space {
            Space::Virtual => self.seen,
            Space::Physical => self.physical,
        }
    }
}

/// A symbol, and how far behind its address another lies.
#[derive(Clone, Debug, PartialEq)]
pub struct Name<'a> {
    pub symbol: &'a str,
    pub offset: u64,
}

impl std::fmt::Display for Name<'_> {
    fn fmt(&self, f: &mut std::fmt::Formatter<'_>) -> std::fmt::Result {
        write!(f, "{}+{:#x}", self.symbol, self.offset)
    }
}

#[derive(Clone, Debug)]
struct Symbol {
    address: u64,
    size: u64,
    name: String,
    /// Of symbols with one address the one that counts: functions before labels, global before local.
    rank: u8,
}

/// What an ELF file names; nothing by default.
#[derive(Default)]
pub struct Symbols {
    segments: Vec<Segment>,
    /// Those that have a size, in rising order, each address once.
    sized: Vec<Symbol>,
    /// Those that have none, as an assembler's labels.
    labels: Vec<Symbol>,
    lines: Option<Context<EndianRcSlice<RunTimeEndian>>>,
    /// The address behind the program's data, where its heap may begin.
    pub end: Option<u64>,
    /// Where the caller stands: a file below is shown from there.
    here: PathBuf,
}

impl Symbols {
    /// Of a file whose segments lie where they say.
    pub fn new(path: &str, elf: &Elf) -> Result<Symbols, Failure> {
        let wrong = |error| {
            let what = format!("its DWARF lines cannot be read ({error})");
            Failure::at(
                path,
                format!("{what}; take them out with objcopy --strip-debug"),
            )
        };
        let (sized, labels): (Vec<_>, Vec<_>) = elf
            .file
            .symbols()
            .filter_map(|symbol| named(&symbol, &elf.segments))
            .partition(|symbol| symbol.size > 0);
        Ok(Symbols {
            segments: elf.segments.clone(),
            sized: sorted(sized),
            labels: sorted(labels),
            lines: match elf.file.has_debug_symbols() {
                true => Some(Context::new(&elf.file).map_err(wrong)?),
                false => None,
            },
            end: end(elf),
            here: std::env::current_dir().unwrap_or_default(),
        })
    }

    /// The symbol that an address lies in, or behind a label.
    pub fn name(&self, address: u64, space: Space) -> Option<Name<'_>> {
        let address = self.seen(address, space)?;
        let segment = self.segment(address)?;
        let sized = last(&self.sized, address);
        let ended = sized.map_or(0, |symbol| symbol.address + symbol.size);
        let symbol = match sized {
            Some(symbol) if address < ended => symbol,
            // Behind a symbol that has ended, only a label behind that end says where it is.
            _ => last(&self.labels, address).filter(|label| label.address >= ended)?,
        };
        segment.pages().contains(&symbol.address).then(|| Name {
            symbol: &symbol.name,
            offset: address - symbol.address,
        })
    }

    /// The line of source that an address belongs to, as FILE:LINE.
    pub fn line(&self, address: u64, space: Space) -> Option<String> {
        let address = self.seen(address, space)?;
        self.segment(address)?;
        let location = self.lines.as_ref()?.find_location(address).ok()??;
        let (file, line) = (Path::new(location.file?), location.line?);
        let file = file.strip_prefix(&self.here).unwrap_or(file);
        Some(format!("{}:{line}", file.display()))
    }

    /// An address, its name and its line as far as they are known: 0x10164 <unlock+0x0> unlock.c:12.
    pub fn told(&self, address: u64, space: Space) -> String {
        let line = self
            .line(address, space)
            .map_or(String::new(), |line| format!(" {line}"));
        self.shown(address, space) + &line
    }

    /// An address and its name: 0x10164 <unlock+0x0>.
    pub fn shown(&self, address: u64, space: Space) -> String {
        match self.name(address, space) {
            Some(name) => format!("{address:#x} <{name}>"),
            None => format!("{address:#x}"),
        }
    }

    /// A return address, with the name and the line of the call before it: behind a call that never returns another function may begin.
    pub fn returns(&self, address: u64, space: Space) -> String {
        let call = address.wrapping_sub(CALL);
        let name = self.name(call, space).map(|name| Name {
            offset: name.offset + CALL,
            ..name
        });
        let name = name.map_or(String::new(), |name| format!(" <{name}>"));
        let line = self.line(call, space);
        let line = line.map_or(String::new(), |line| format!(" {line}"));
        format!("{address:#x}{name}{line}")
    }

    /// What a return address is called for programs, by the call before it.
    pub fn call(&self, address: u64, space: Space) -> Facts {
        self.facts(address.wrapping_sub(CALL), space)
    }

    /// What an address is called for programs: `symbol` and `source`, each null where it is not known.
    pub fn facts(&self, address: u64, space: Space) -> Facts {
        let source = self.line(address, space);
        vec![
            ("symbol", self.symbol(address, space)),
            ("source", source.map_or(Value::Null, Value::from)),
        ]
    }

    /// The name of an address, or null.
    pub fn symbol(&self, address: u64, space: Space) -> Value {
        let name = self.name(address, space);
        name.map_or(Value::Null, |name| Value::from(name.to_string()))
    }

    /// A place of the program: v: and an address, a symbol, or a symbol, + and how far behind it.
    pub fn place(&self, text: &str) -> Result<Place, String> {
        if let Some(address) = text.strip_prefix("v:") {
            let address = number(address)?;
            return Ok(Place {
                seen: address,
                physical: address,
            });
        }
        let (name, offset) = match text.rsplit_once('+') {
            Some((name, offset)) => (name, number(offset)?),
            None => (text, 0),
        };
        let seen = self.address(name)?;
        let segment = self.segment(seen);
        let physical = segment.map_or(seen, |segment| seen - segment.address + segment.physical);
        match (seen.checked_add(offset), physical.checked_add(offset)) {
            (Some(seen), Some(physical)) => Ok(Place { seen, physical }),
            _ => Err(format!("{text} lies past the last address; give less")),
        }
    }

    /// The virtual address of a symbol.
    fn address(&self, name: &str) -> Result<u64, String> {
        let all = || self.sized.iter().chain(&self.labels);
        let mut found: Vec<u64> = all()
            .filter(|symbol| symbol.name == name)
            .map(|symbol| symbol.address)
            .collect();
        found.sort_unstable();
        match found.as_slice() {
            [address] => Ok(*address),
            [one, other, ..] => Err(format!("'{name}' names two places, {one:#x} and {other:#x}; give the address")),
            [] if self.segments.is_empty() => Err(format!("'{name}' is no number, and there are no symbols; give an ELF file, or --symbols FILE.elf")),
            [] => Err(match nearest(name, all().map(|symbol| symbol.name.as_str())) {
                Some(near) => format!("there is no symbol '{name}'; did you mean {near}?"),
                None => format!("there is no symbol '{name}'; 'nm' lists those of the file"),
            }),
        }
    }

    /// The address as the program sees it.
    fn seen(&self, address: u64, space: Space) -> Option<u64> {
        match space {
            Space::Virtual => Some(address),
            Space::Physical => {
                let segment = self
                    .segments
                    .iter()
                    .find(|segment| segment.frames().contains(&address))?;
                Some(address - segment.physical + segment.address)
            }
        }
    }

    fn segment(&self, address: u64) -> Option<&Segment> {
        self.segments
            .iter()
            .find(|segment| segment.pages().contains(&address))
    }
}

/// A symbol that names something in a segment; not one of the assembler's own, and no section or file.
fn named<'data>(symbol: &impl ObjectSymbol<'data>, segments: &[Segment]) -> Option<Symbol> {
    let name = symbol.name().ok()?;
    let kind = symbol.kind();
    let place = matches!(symbol.section(), SymbolSection::Section(_));
    let own = name.is_empty() || name.starts_with('$') || name.starts_with(".L");
    let named = matches!(
        kind,
        SymbolKind::Text | SymbolKind::Data | SymbolKind::Unknown
    );
    let inside = segments
        .iter()
        .any(|segment| segment.pages().contains(&symbol.address()));
    let function = u8::from(kind != SymbolKind::Text);
    let bound = u8::from(symbol.is_local()) + u8::from(symbol.is_weak());
    (place && named && inside && !own).then(|| Symbol {
        address: symbol.address(),
        // A size past the last address is a mistake of the file's maker, and no reason to stop.
        size: symbol.size().min(u64::MAX - symbol.address()),
        name: name.into(),
        rank: 2 * function + bound.min(1),
    })
}

/// The linker's symbol `_end`; else the end of the last segment that can be written.
fn end(elf: &Elf) -> Option<u64> {
    let named = |symbol: &object::read::elf::ElfSymbol64<'_, '_, object::LittleEndian>| {
        symbol.name() == Ok("_end")
    };
    let symbol = elf
        .file
        .symbols()
        .find(named)
        .map(|symbol| symbol.address());
    let data = elf
        .segments
        .iter()
        .filter(|segment| segment.rights.contains('w'));
    symbol.or_else(|| data.map(|segment| segment.pages().end).max())
}

/// In rising order, and of each address the symbol that counts.
fn sorted(mut symbols: Vec<Symbol>) -> Vec<Symbol> {
    symbols.sort_by(|one, other| {
        let key = |symbol: &Symbol| (symbol.address, symbol.rank);
        key(one)
            .cmp(&key(other))
            .then_with(|| one.name.cmp(&other.name))
    });
    symbols
}

/// Of the symbols at or before an address those that are nearest, and of these the first.
fn last(symbols: &[Symbol], address: u64) -> Option<&Symbol> {
    let behind = symbols.partition_point(|symbol| symbol.address <= address);
    let nearest = symbols[..behind].last()?.address;
    let first = symbols.partition_point(|symbol| symbol.address < nearest);
    symbols.get(first)
}

#[cfg(test)]
#[path = "../tests/common/elf.rs"]
#[allow(dead_code)]
mod made;

#[cfg(test)]
mod tests {
    use super::made::{program, Symbol, FUNCTION, LABEL, OBJECT};
    use super::*;

    #[test]
    fn a_name_has_one_address() {
        let mut elf = program(&[0; 8]);
        elf.symbols = vec![
            Symbol("unlock", 0x8000_0000, 8, FUNCTION),
            Symbol("table", 0x8000_0010, 8, OBJECT),
            Symbol("once", 0x8000_0008, 0, LABEL),
            Symbol("once", 0x8000_000c, 0, LABEL),
            Symbol("outside", 0x9000_0000, 0, LABEL),
        ];
        let bytes = elf.bytes();
        let symbols = Symbols::new("p.elf", &Elf::read("p.elf", &bytes).unwrap()).unwrap();
        let address = |name| symbols.address(name);
        assert_eq!(address("unlock"), Ok(0x8000_0000));
        assert_eq!(address("table"), Ok(0x8000_0010));
        let wrong = |name| address(name).unwrap_err();
        assert_eq!(
            wrong("once"),
            "'once' names two places, 0x80000008 and 0x8000000c; give the address"
        );
        assert_eq!(
            wrong("unlokc"),
            "there is no symbol 'unlokc'; did you mean unlock?"
        );
        assert_eq!(
            wrong("outside"),
            "there is no symbol 'outside'; 'nm' lists those of the file"
        );
        let none = Symbols::default().address("main").unwrap_err();
        assert!(none.contains("there are no symbols"), "{none}");
    }
}
