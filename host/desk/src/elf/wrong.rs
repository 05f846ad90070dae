//! What is wrong with an ELF file for this hart, in words.

use super::Segment;
use crate::map::PAGE;
use crate::refusal::MEMORY;
use object::elf::{FileHeader64, ProgramHeader64};
use object::read::elf::ProgramHeader;
use object::LittleEndian;
use sporhulma::BASE;
use std::mem::size_of;
use std::ops::Range;

const MAGIC: &[u8] = b"\x7fELF";
/// Where the header has what is asked before it is read as one of RV64.
const CLASS: usize = 4;
const DATA: usize = 5;
const TYPE: usize = 16;
const MACHINE: usize = 18;

/// Machines whose files are likely to be given by mistake, by e_machine.
const MACHINES: [(u16, &str); 8] = [
    (3, "x86 (32-bit)"),
    (8, "MIPS"),
    (20, "PowerPC"),
    (21, "PowerPC (64-bit)"),
    (40, "ARM (32-bit)"),
    (62, "x86-64"),
    (183, "AArch64"),
    (258, "LoongArch"),
];
const RISCV: u16 = 243;

/// Whether bytes begin as an ELF file does.
pub fn told(bytes: &[u8]) -> bool {
    bytes.starts_with(MAGIC)
}

/// Whether it is a linked ELF file for RV64, as far as its header says.
pub fn header(bytes: &[u8]) -> Result<(), String> {
    let number = |at: usize| u16::from(bytes[at]) | u16::from(bytes[at + 1]) << 8;
    let least = size_of::<FileHeader64<LittleEndian>>();
    if !told(bytes) {
        return Err("it does not begin with the bytes 7f 45 4c 46, as an ELF file does; give an ELF file, or leave out --format".into());
    }
    if bytes.len() < MACHINE + 2 {
        return Err(cut_off(bytes.len(), least));
    }
    if bytes[DATA] == 2 {
        return Err(
            "it is a big-endian ELF file, and this hart is little-endian; compile for riscv64"
                .into(),
        );
    }
    machine(number(MACHINE))?;
    if bytes[CLASS] == 1 {
        return Err("it is an ELF file for RV32, and this hart is RV64; compile with -march=rv64i.. -mabi=lp64".into());
    }
    if bytes.len() < least {
        return Err(cut_off(bytes.len(), least));
    }
    match number(TYPE) {
        1 => Err(
            "it is an object file that was not linked (type REL); link it, and give the program"
                .into(),
        ),
        4 => Err("it is a core file (type CORE) and no program; give the program".into()),
        _ => Ok(()),
    }
}

fn machine(number: u16) -> Result<(), String> {
    if number == RISCV {
        return Ok(());
    }
    let named = MACHINES.iter().find(|machine| machine.0 == number);
    let name = named.map_or(format!("machine {number}"), |machine| machine.1.into());
    Err(format!(
        "it is an ELF file for {name}, and this hart is RISC-V; compile for riscv64"
    ))
}

fn cut_off(length: usize, header: usize) -> String {
    format!("it begins as an ELF file and ends after {length} bytes, within its header of {header}; it was cut off")
}

/// Whether the bytes of a segment lie in the file, and its addresses are numbers of 64 bits.
pub fn extent(
    number: usize,
    header: &ProgramHeader64<LittleEndian>,
    length: u64,
) -> Result<(), String> {
    let endian = LittleEndian;
    let (start, size) = (header.p_offset(endian), header.p_filesz(endian));
    let memory = header.p_memsz(endian);
    let (address, physical) = (header.p_vaddr(endian), header.p_paddr(endian));
    if start.checked_add(size).is_none_or(|end| end > length) {
        return Err(format!("the ELF file is broken: segment {number} has {size} bytes from offset {start:#x} on, and the file ends at {length:#x}; it was cut off"));
    }
    if size > memory {
        return Err(format!("the ELF file is broken: segment {number} has {size} bytes in the file and only {memory} in memory"));
    }
    // Up to the end of its last page, which is counted with.
    let ends = |start: u64| start.checked_add(memory)?.checked_next_multiple_of(PAGE);
    if ends(address).is_none() || ends(physical).is_none() {
        return Err(format!(
            "the ELF file is broken: segment {number} goes past the last page"
        ));
    }
    Ok(())
}

/// What is wrong with where a segment lies, if not all of it is in memory.
pub fn outside(segment: &Segment, length: u64, relocatable: bool) -> Option<String> {
    let Range { start, end } = segment.frames();
    let behind = BASE + length;
    if start >= BASE && end <= behind {
        return None;
    }
    let right = if start >= BASE && end <= BASE + MEMORY {
        format!("try --memory {}", (end - BASE).next_multiple_of(PAGE))
    } else if relocatable {
        "it is position-independent; link it with -no-pie".into()
    } else {
        format!("link it to run from {BASE:#x} on, or run it in user mode with --user")
    };
    Some(format!(
        "segment {} lies at physical {start:#x} to {:#x}, outside memory, which is {BASE:#x} to {:#x}; {right}",
        segment.number,
        end - 1,
        behind - 1
    ))
}

/// Whether no two segments share a byte.
pub fn overlap(
    segments: &[Segment],
    kind: &str,
    range: fn(&Segment) -> Range<u64>,
) -> Result<(), String> {
    for (i, one) in segments.iter().enumerate() {
        for other in &segments[..i] {
            let (own, before) = (range(one), range(other));
            if own.start < before.end && before.start < own.end {
                let first = own.start.max(before.start);
                return Err(format!(
                    "segments {} and {} both have {kind} {first:#x}; link them apart",
                    other.number, one.number
                ));
            }
        }
    }
    Ok(())
}
