//! ELF files made byte by byte, so that a test can have any, right or wrong, and no compiler is needed.

/// A loadable segment.
#[derive(Clone)]
pub struct Load {
    pub address: u64,
    pub physical: u64,
    /// R 4, W 2, X 1.
    pub flags: u32,
    pub bytes: Vec<u8>,
    /// Bytes in memory.
    pub length: u64,
}

/// A symbol: its name, address, size and st_info (0x12 a global function, 0x11 a global object, 0x00 a label).
#[derive(Clone)]
pub struct Symbol(pub &'static str, pub u64, pub u64, pub u8);

pub const FUNCTION: u8 = 0x12;
pub const OBJECT: u8 = 0x11;
pub const LABEL: u8 = 0x00;

/// An ELF file for RV64; what a test changes in it is up to the test.
#[derive(Clone)]
pub struct Elf {
    pub kind: u16,
    pub entry: u64,
    pub loads: Vec<Load>,
    pub symbols: Vec<Symbol>,
    /// Addresses and the lines of unlock.c that they belong to, in rising order; the last address is the end.
    pub lines: Vec<(u64, i64)>,
    /// Whether the first segment begins with the file's own headers.
    pub headers_loaded: bool,
}

/// A segment of words, `rights` in letters.
pub fn load(address: u64, physical: u64, rights: &str, words: &[u32]) -> Load {
    let bytes: Vec<u8> = words.iter().flat_map(|word| word.to_le_bytes()).collect();
    let flag = |letter: char, bit: u32| if rights.contains(letter) { bit } else { 0 };
    Load {
        address,
        physical,
        flags: flag('r', 4) | flag('w', 2) | flag('x', 1),
        length: bytes.len() as u64,
        bytes,
    }
}

/// A program of one segment at its physical address that starts at its first word.
pub fn program(words: &[u32]) -> Elf {
    Elf {
        kind: 2,
        entry: 0x8000_0000,
        loads: vec![load(0x8000_0000, 0x8000_0000, "rx", words)],
        symbols: Vec::new(),
        lines: Vec::new(),
        headers_loaded: false,
    }
}

const HEADER: usize = 64;
const PROGRAM: usize = 56;

impl Elf {
    pub fn bytes(&self) -> Vec<u8> {
        let mut offset = HEADER + PROGRAM * self.loads.len();
        let (mut headers, mut body) = (Vec::new(), Vec::new());
        for load in &self.loads {
            let whole = self.headers_loaded && body.is_empty();
            headers.extend(header(load, if whole { 0 } else { offset }, offset));
            body.extend(&load.bytes);
            offset += load.bytes.len();
        }
        let (symtab, strtab) = self.symtab();
        let debug = self.debug();
        let mut sections = vec![("", 0, vec![], 0, 0), (".text", 1, vec![], 0, 0)];
        sections.push((".symtab", 2, symtab, 3, 1));
        sections.push((".strtab", 3, strtab, 0, 0));
        for (name, bytes) in debug {
            sections.push((name, 1, bytes, 0, 0));
        }
        let names: String = sections.iter().map(|one| format!("{}\0", one.0)).collect();
        let names = format!("{names}.shstrtab\0");
        sections.push((".shstrtab", 3, names.clone().into_bytes(), 0, 0));
        let (mut table, mut name) = (Vec::new(), 0);
        let count = sections.len();
        for (title, kind, bytes, link, info) in sections {
            let entry = if kind == 2 { 24 } else { 0 };
            table.extend([name as u32, kind].iter().flat_map(|n| n.to_le_bytes()));
            // Only .text is a part of the program in memory.
            let (flags, address) = match title {
                ".text" => (6, self.text()),
                _ => (0, 0),
            };
            for number in [flags, address, offset as u64, bytes.len() as u64] {
                table.extend(number.to_le_bytes());
            }
            table.extend([link, info].iter().flat_map(|n: &u32| n.to_le_bytes()));
            table.extend([1, entry].iter().flat_map(|n: &u64| n.to_le_bytes()));
            name += title.len() + 1;
            offset += bytes.len();
            body.extend(bytes);
        }
        let file = self.file_header(offset as u64, count as u16);
        [file, headers, body, table].concat()
    }

    /// The address of the first segment's own bytes.
    fn text(&self) -> u64 {
        let headers = HEADER + PROGRAM * self.loads.len();
        let before = if self.headers_loaded {
            headers as u64
        } else {
            0
        };
        self.loads.first().map_or(0, |load| load.address + before)
    }

    fn file_header(&self, sections: u64, count: u16) -> Vec<u8> {
        let mut bytes = b"\x7fELF\x02\x01\x01\0\0\0\0\0\0\0\0\0".to_vec();
        for number in [self.kind, 243, 1, 0] {
            bytes.extend(number.to_le_bytes());
        }
        for number in [self.entry, HEADER as u64, sections] {
            bytes.extend(number.to_le_bytes());
        }
        bytes.extend(0u32.to_le_bytes());
        let loads = self.loads.len() as u16;
        let (header, program) = (HEADER as u16, PROGRAM as u16);
        for number in [header, program, loads, 64, count, count - 1] {
            bytes.extend(number.to_le_bytes());
        }
        bytes
    }

    fn symtab(&self) -> (Vec<u8>, Vec<u8>) {
        let (mut table, mut names) = (vec![0; 24], vec![0]);
        for Symbol(name, address, size, info) in &self.symbols {
            table.extend((names.len() as u32).to_le_bytes());
            table.extend([*info, 0, 1, 0]);
            table.extend(address.to_le_bytes());
            table.extend(size.to_le_bytes());
            names.extend(name.bytes().chain([0]));
        }
        (table, names)
    }

    /// DWARF 4: one unit with a table of lines.
    fn debug(&self) -> Vec<(&'static str, Vec<u8>)> {
        let (Some(first), Some(last)) = (self.lines.first(), self.lines.last()) else {
            return Vec::new();
        };
        // A unit without children: name, low_pc, high_pc, stmt_list.
        let abbrev = b"\x01\x11\0\x03\x08\x11\x01\x12\x07\x10\x17\0\0\0".to_vec();
        let mut unit = b"\x04\0\0\0\0\0\x08\x01unlock.c\0".to_vec();
        unit.extend(first.0.to_le_bytes());
        unit.extend((last.0 - first.0).to_le_bytes());
        unit.extend([0; 4]);
        // Of the header what stands behind its length: instruction lengths, line base, the standard opcodes' operands, one file.
        let header =
            b"\x01\x01\x01\xfb\x0e\x0d\0\x01\x01\x01\x01\0\0\0\x01\0\0\x01\0unlock.c\0\0\0\0\0";
        let mut line = b"\x04\0".to_vec();
        line.extend((header.len() as u32).to_le_bytes());
        line.extend(header);
        line.extend(b"\0\x09\x02");
        line.extend(first.0.to_le_bytes());
        let (mut address, mut number) = (first.0, 1);
        for (i, (next, own)) in self.lines.iter().enumerate() {
            line.push(2);
            line.push((next - address) as u8); // short stretches only
            if i + 1 == self.lines.len() {
                line.extend(b"\0\x01\x01");
            } else {
                line.push(3);
                line.push((own - number) as u8 & 0x7f);
                line.push(1);
            }
            (address, number) = (*next, *own);
        }
        let sized = |bytes: Vec<u8>| [(bytes.len() as u32).to_le_bytes().to_vec(), bytes].concat();
        vec![
            (".debug_abbrev", abbrev),
            (".debug_info", sized(unit)),
            (".debug_line", sized(line)),
        ]
    }
}

/// `start` is where the segment begins in the file, `offset` where its own bytes are.
fn header(load: &Load, start: usize, offset: usize) -> Vec<u8> {
    let mut bytes: Vec<u8> = [1, load.flags]
        .iter()
        .flat_map(|number: &u32| number.to_le_bytes())
        .collect();
    let before = (offset - start) as u64;
    let size = load.bytes.len() as u64 + before;
    let length = load.length + before;
    let start = start as u64;
    for number in [start, load.address, load.physical, size, length, 4096] {
        bytes.extend(number.to_le_bytes());
    }
    bytes
}
