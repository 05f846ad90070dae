//! The bytes of memory: little-endian reads and writes of one width at a place that was allowed.

/// The physical address of the first byte.
pub const MEMORY_START: u64 = 0x8000_0000;

#[derive(Clone, Copy, PartialEq, Eq, Debug)]
pub enum Width {
    Byte,
    Half,
    Word,
    Double,
}

impl Width {
    #[inline]
    pub fn bytes(self) -> u64 {
        match self {
            Width::Byte => 1,
            Width::Half => 2,
            Width::Word => 4,
            Width::Double => 8,
        }
    }
}

/// What goes into the bits above a narrow value.
#[derive(Clone, Copy, PartialEq, Eq, Debug)]
pub enum Extension {
    Sign,
    Zero,
}

/// Reads the bytes at `at`, with zeros above them.
#[inline]
pub fn read(mem: &[u8], at: usize, width: Width) -> u64 {
    match width {
        Width::Byte => u64::from(mem[at]),
        Width::Half => u64::from(u16::from_le_bytes(bytes(mem, at))),
        Width::Word => u64::from(u32::from_le_bytes(bytes(mem, at))),
        Width::Double => u64::from_le_bytes(bytes(mem, at)),
    }
}

/// Reads the bytes at `at`, with zeros or copies of their sign above them.
#[inline]
pub fn read_extended(mem: &[u8], at: usize, width: Width, extension: Extension) -> u64 {
    let value = read(mem, at, width);
    match (extension, width) {
        (Extension::Zero, _) | (_, Width::Double) => value,
        (Extension::Sign, Width::Byte) => value as i8 as u64,
        (Extension::Sign, Width::Half) => value as i16 as u64,
        (Extension::Sign, Width::Word) => value as i32 as u64,
    }
}

/// Writes the low bytes of `value` at `at`.
#[inline]
pub fn write(mem: &mut [u8], at: usize, width: Width, value: u64) {
    match width {
        Width::Byte => mem[at] = value as u8,
        Width::Half => mem[at..at + 2].copy_from_slice(&(value as u16).to_le_bytes()),
        Width::Word => mem[at..at + 4].copy_from_slice(&(value as u32).to_le_bytes()),
        Width::Double => mem[at..at + 8].copy_from_slice(&value.to_le_bytes()),
    }
}

#[inline]
fn bytes<const N: usize>(mem: &[u8], at: usize) -> [u8; N] {
    let mut bytes = [0; N];
    bytes.copy_from_slice(&mem[at..at + N]);
    bytes
}
