//! An executable in ELF for RV64: what it puts into memory, where it starts, and what its symbols and lines name.
//!
//! Everything else that begins as an ELF file does is refused in words.

mod wrong;

use crate::failure::Failure;
use object::elf::{FileHeader64, PF_R, PF_W, PF_X, PT_LOAD, SHF_ALLOC};
use object::read::elf::{ElfFile64, FileHeader, ProgramHeader};
use object::{LittleEndian, Object, ObjectSection, SectionFlags};
use sporhulma::BASE;
use std::ops::Range;

pub use wrong::told;

/// What the crate `object` reads an ELF file as.
pub type File<'a> = ElfFile64<'a, LittleEndian>;

/// A loadable segment.
#[derive(Clone, Debug, PartialEq)]
pub struct Segment {
    /// Its place among the program headers, from 0 on, as readelf shows it.
    pub number: usize,
    /// Where the program has it.
    pub address: u64,
    /// Where it is put into memory.
    pub physical: u64,
    /// Its bytes in memory, the zeros behind those of the file included.
    pub length: u64,
    /// Where the file has its bytes.
    pub bytes: Range<usize>,
    /// R, W and X as far as they are set.
    pub rights: String,
}

impl Segment {
    /// Where it lies in memory.
    pub fn frames(&self) -> Range<u64> {
        self.physical..self.physical + self.length
    }

    /// Where the program sees it.
    pub fn pages(&self) -> Range<u64> {
        self.address..self.address + self.length
    }
}

/// An ELF file that this hart can run.
pub struct Elf<'a> {
    pub file: File<'a>,
    pub bytes: &'a [u8],
    /// The address of its first instruction, as the program sees it.
    pub entry: u64,
    pub segments: Vec<Segment>,
}

impl<'a> Elf<'a> {
    pub fn read(path: &str, bytes: &'a [u8]) -> Result<Elf<'a>, Failure> {
        let at = |wrong: String| Failure::at(path, wrong);
        wrong::header(bytes).map_err(at)?;
        let broken = |error| at(format!("the ELF file is broken: {error}"));
        let file = File::parse(bytes).map_err(broken)?;
        let segments = segments(&file, bytes.len() as u64).map_err(at)?;
        Ok(Elf {
            entry: file.raw_header().e_entry(LittleEndian),
            file,
            bytes,
            segments,
        })
    }

    /// Leaves out the file's own headers where a segment begins with them and they lie before memory: a linker that is told where the
    /// code begins puts them on the page before it.
    pub fn leave_out_headers(&mut self) {
        for segment in &mut self.segments {
            if segment.bytes.start != 0 || segment.physical >= BASE {
                continue;
            }
            let (pages, length) = (segment.pages(), segment.bytes.len() as u64);
            let sections = self.file.sections().filter(loaded);
            let first = sections
                .map(|section| section.address())
                .filter(|address| pages.contains(address))
                .min();
            let headers = first.unwrap_or(pages.start) - pages.start;
            if headers <= length {
                segment.address += headers;
                segment.physical += headers;
                segment.length -= headers;
                segment.bytes.start += headers as usize;
            }
        }
    }

    /// Puts the segments into memory by their physical addresses.
    pub fn place(&self, path: &str, mem: &mut [u8]) -> Result<(), Failure> {
        let length = mem.len() as u64;
        let at = |wrong: String| Failure::at(path, wrong);
        for segment in &self.segments {
            if let Some(wrong) = wrong::outside(segment, length, self.relocatable()) {
                return Err(at(wrong));
            }
        }
        wrong::overlap(&self.segments, "physical", Segment::frames).map_err(at)?;
        for segment in &self.segments {
            let start = (segment.physical - BASE) as usize;
            let bytes = &self.bytes[segment.bytes.clone()];
            mem[start..start + bytes.len()].copy_from_slice(bytes);
        }
        Ok(())
    }

    /// Whether its addresses are not those that it is to run at (type DYN, a position-independent executable).
    fn relocatable(&self) -> bool {
        self.file.raw_header().e_type(LittleEndian) == object::elf::ET_DYN
    }
}

/// Whether a section is a part of the program in memory.
fn loaded<'a>(section: &impl ObjectSection<'a>) -> bool {
    match section.flags() {
        SectionFlags::Elf { sh_flags } => sh_flags & u64::from(SHF_ALLOC) != 0,
        _ => false,
    }
}

/// The loadable segments that have bytes, in the file's order.
fn segments(file: &File, length: u64) -> Result<Vec<Segment>, String> {
    let headers = file.raw_segments().iter().enumerate();
    let loadable = headers.filter(|(_, header)| {
        header.p_type(LittleEndian) == PT_LOAD && header.p_memsz(LittleEndian) > 0
    });
    let segments = loadable
        .map(|(number, header)| segment(number, header, length))
        .collect::<Result<Vec<_>, _>>()?;
    match segments.is_empty() {
        true => Err(
            "the ELF file has no loadable segments, so nothing to run; give a linked program"
                .into(),
        ),
        false => Ok(segments),
    }
}

fn segment(
    number: usize,
    header: &<FileHeader64<LittleEndian> as FileHeader>::ProgramHeader,
    length: u64,
) -> Result<Segment, String> {
    let endian = LittleEndian;
    let (start, size) = (header.p_offset(endian), header.p_filesz(endian));
    wrong::extent(number, header, length)?;
    let letter = |(flag, letter)| (header.p_flags(endian) & flag != 0).then_some(letter);
    Ok(Segment {
        number,
        address: header.p_vaddr(endian),
        physical: header.p_paddr(endian),
        length: header.p_memsz(endian),
        bytes: start as usize..(start + size) as usize,
        rights: [(PF_R, 'r'), (PF_W, 'w'), (PF_X, 'x')]
            .into_iter()
            .filter_map(letter)
            .collect(),
    })
}
