//! Intel HEX (chapter 11 of docs/HART.md): the whole text is judged, and only then its bytes are stored.
//!
//! A line is a record: a colon and pairs of hex digits, which are the number of data bytes, a 16-bit offset, a type, the data
//! and a checksum. A record says itself how long it is, so nobody looks for the end of a line: where it ends elsewhere, a pair
//! or what follows the last one is not what it should be.

use crate::memory::MEMORY_START;
use crate::refusal::memory_fits;
use std::ops::Range;

/// What became of a text. Refusal 0: it was loaded.
#[derive(Clone, Copy, PartialEq, Eq, Debug)]
pub struct Loaded {
    pub refusal: u64,
    /// The line that refusal 6 names, from 1; else 0.
    pub line: u64,
    /// The address of the last type 05, if there was one.
    pub start: Option<u64>,
}

/// Loads a text into memory, or changes no byte of it.
pub fn load_hex(memory: &mut [u8], text: &[u8]) -> Loaded {
    let refused = |refusal, line| Loaded {
        refusal,
        line,
        start: None,
    };
    if !memory_fits(memory) {
        return refused(2, 0);
    }
    match Image::read(text, memory.len()) {
        Ok(image) => {
            image.store(memory);
            Loaded {
                refusal: 0,
                line: 0,
                start: image.start,
            }
        }
        Err(line) => refused(6, line),
    }
}

/// What a text says that nothing is wrong with.
struct Image {
    /// The bytes of all its records, one after the other.
    bytes: Vec<u8>,
    /// Of each data record: where in memory its data begin, and where in `bytes` they stand.
    data: Vec<(usize, Range<usize>)>,
    start: Option<u64>,
}

impl Image {
    /// Reads a text for a memory of so many bytes; an error is the number of the first wrong line.
    fn read(text: &[u8], memory: usize) -> Result<Image, u64> {
        let mut image = Image {
            bytes: Vec::with_capacity(text.len() / 2),
            data: Vec::new(),
            start: None,
        };
        let mut upper = 0;
        let mut rest = text;
        let mut line = 1;
        loop {
            let first = image.bytes.len();
            // Where nothing is left there is no record either: the end is missing.
            rest = record(rest, &mut image.bytes).ok_or(line)?;
            let [_, high, low, kind, ref data @ .., _] = image.bytes[first..] else {
                return Err(line);
            };
            match (kind, u16::from_be_bytes([high, low]), data) {
                (0, offset, data) => {
                    let address = (u64::from(upper) << 16) + u64::from(offset);
                    let at = place(address, data.len(), memory).ok_or(line)?;
                    let data = first + 4..first + 4 + data.len();
                    image.data.push((at, data));
                }
                (1, 0, []) if rest.is_empty() => return Ok(image),
                (1, 0, []) => return Err(line + 1),
                (4, 0, &[high, low]) => upper = u16::from_be_bytes([high, low]),
                (5, 0, &[a, b, c, d]) => {
                    image.start = Some(u32::from_be_bytes([a, b, c, d]).into())
                }
                _ => return Err(line),
            }
            line += 1;
        }
    }

    /// Later records over earlier ones.
    fn store(&self, memory: &mut [u8]) {
        for (at, data) in &self.data {
            memory[*at..*at + data.len()].copy_from_slice(&self.bytes[data.clone()]);
        }
    }
}

/// Adds the bytes of the record that `text` begins with to `bytes` and gives what follows its line; nothing if it has no
/// well-formed line with the right checksum.
fn record<'a>(text: &'a [u8], bytes: &mut Vec<u8>) -> Option<&'a [u8]> {
    let [b':', digits @ ..] = text else {
        return None;
    };
    let &[one, other, ..] = digits else {
        return None;
    };
    // Beside the data: their number, two bytes of offset, type and checksum.
    let length = usize::from(pair(one, other)?) + 5;
    let (digits, rest) = digits.split_at_checked(2 * length)?;
    let (mut sum, mut wrong) = (0u8, 0);
    bytes.extend(digits.chunks_exact(2).map(|pair| {
        let [high, low] = [pair[0], pair[1]].map(|digit| DIGITS[usize::from(digit)]);
        wrong |= high | low;
        let byte = high << 4 | low & 15;
        sum = sum.wrapping_add(byte);
        byte
    }));
    if wrong & NO_DIGIT != 0 || sum != 0 {
        return None;
    }
    match rest {
        [] => Some(rest),
        [b'\n', rest @ ..] | [b'\r', b'\n', rest @ ..] => Some(rest),
        _ => None,
    }
}

/// Where in memory so many bytes at an address begin, if all of them are in memory. No bytes are, wherever they point.
fn place(address: u64, length: usize, memory: usize) -> Option<usize> {
    if length == 0 {
        return Some(0);
    }
    let at = usize::try_from(address.checked_sub(MEMORY_START)?).ok()?;
    (at + length <= memory).then_some(at)
}

/// What each byte of a text is as a hex digit; a bit above the lowest four says that it is none.
const DIGITS: [u8; 256] = {
    let mut digits = [NO_DIGIT; 256];
    let mut value = 0;
    while value < 16 {
        digits[b"0123456789abcdef"[value] as usize] = value as u8;
        digits[b"0123456789ABCDEF"[value] as usize] = value as u8;
        value += 1;
    }
    digits
};
const NO_DIGIT: u8 = 1 << 7;

fn pair(one: u8, other: u8) -> Option<u8> {
    let [high, low] = [one, other].map(|digit| DIGITS[usize::from(digit)]);
    ((high | low) & NO_DIGIT == 0).then_some(high << 4 | low)
}
