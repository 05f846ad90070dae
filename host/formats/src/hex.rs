//! Intel HEX as it is written: a record, and a whole image. `desk hex` writes with it, and differ, bench and outside make
//! their texts with it. The second reader does not use it.

/// The types of records that chapter 11 of docs/HART.md names.
pub const DATA: u8 = 0;
pub const END: u8 = 1;
pub const UPPER: u8 = 4;
pub const START: u8 = 5;

/// The most data bytes that a record can say it has.
pub const MOST_DATA: usize = 255;

/// How many bytes one upper address reaches.
pub const WINDOW: u64 = 1 << 16;

/// The byte that makes the sum of a record's bytes 0 modulo 256.
pub fn checksum(bytes: &[u8]) -> u8 {
    let add = |sum: u8, byte: &u8| sum.wrapping_add(*byte);
    bytes.iter().fold(0, add).wrapping_neg()
}

/// The bytes of a record but for its checksum. `data` are at most [`MOST_DATA`].
pub fn bytes(kind: u8, offset: u16, data: &[u8]) -> Vec<u8> {
    let count = u8::try_from(data.len()).expect("a record has at most 255 data bytes");
    let [high, low] = offset.to_be_bytes();
    [&[count, high, low, kind], data].concat()
}

/// A line without its end: a colon, these bytes and their checksum, in capitals.
pub fn line(bytes: &[u8]) -> String {
    const DIGITS: &[u8; 16] = b"0123456789ABCDEF";
    let digit = |value: u8| char::from(DIGITS[usize::from(value)]);
    let mut line = String::with_capacity(2 * bytes.len() + 4);
    line.push(':');
    for byte in bytes.iter().chain(&[checksum(bytes)]) {
        line.extend([digit(byte >> 4), digit(byte & 15)]);
    }
    line
}

/// A record as its line without an end.
pub fn record(kind: u8, offset: u16, data: &[u8]) -> String {
    line(&bytes(kind, offset, data))
}

/// An image from an address on, in records of `length` data bytes (1 to 255) that end with LF: upper addresses where they
/// change, the start address if there is one, and the end record. No record goes over a multiple of 65,536, since readers
/// differ about that. The image ends below 2^32.
pub fn text(image: &[u8], address: u32, length: usize, start: Option<u32>) -> String {
    let mut lines = String::with_capacity(image.len() * (2 * length + 12) / length + 64);
    let mut add = |kind, offset, data: &[u8]| {
        lines += &record(kind, offset, data);
        lines.push('\n');
    };
    let (mut upper, mut at, mut rest) = (0, u64::from(address), image);
    while !rest.is_empty() {
        if at / WINDOW != upper {
            upper = at / WINDOW;
            let upper = u16::try_from(upper).expect("an image ends below 2^32");
            add(UPPER, 0, &upper.to_be_bytes());
        }
        let offset = at % WINDOW;
        let fits = length.min((WINDOW - offset) as usize).min(rest.len());
        let (data, after) = rest.split_at(fits);
        add(DATA, offset as u16, data);
        (at, rest) = (at + fits as u64, after);
    }
    if let Some(start) = start {
        add(START, 0, &start.to_be_bytes());
    }
    add(END, 0, &[]);
    lines
}

#[cfg(test)]
mod tests {
    use super::*;

    /// Lines that others wrote.
    #[test]
    fn records_as_others_write_them() {
        assert_eq!(record(END, 0, &[]), ":00000001FF");
        assert_eq!(record(UPPER, 0, &[0x80, 0]), ":0200000480007A");
        assert_eq!(record(START, 0, &[0, 0, 0, 0xCD]), ":04000005000000CD2A");
        let data = record(DATA, 0x10, b"address gap");
        assert_eq!(data, ":0B0010006164647265737320676170A7");
    }

    #[test]
    fn an_image_is_cut_where_the_upper_address_changes() {
        let image = [1, 2, 3, 4, 5, 6, 7];
        let lines = text(&image, 0x8000_FFFD, 2, Some(0x8000_FFFE));
        let expected = [
            ":0200000480007A",
            ":02FFFD000102FF",
            ":01FFFF0003FE",
            ":02000004800179",
            ":020000000405F5",
            ":020002000607EF",
            ":040000058000FFFE7A",
            ":00000001FF",
        ];
        assert_eq!(lines, expected.map(|line| format!("{line}\n")).concat());
        assert_eq!(text(&[], 0, 16, None), ":00000001FF\n");
        assert_eq!(text(&[0], 0, 16, None), ":0100000000FF\n:00000001FF\n");
        let last = text(&[9], u32::MAX, 255, None);
        assert_eq!(last, ":02000004FFFFFC\n:01FFFF0009F8\n:00000001FF\n");
    }
}
