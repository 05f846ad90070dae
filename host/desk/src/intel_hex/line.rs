//! A plain reading of one line of Intel HEX: its record, or in words what is wrong with it.

use formats::hex::{checksum, DATA, END, START, UPPER};

/// Pairs of a record beside its data: length, two of offset, type, checksum.
const FRAME: usize = 5;

/// What a well-formed line of a type that is read says, as far as the desk needs it.
#[derive(Debug, PartialEq)]
pub enum Record {
    /// At this offset so many bytes.
    Data(u16, usize),
    End,
    Upper(u16),
    Start,
}

/// The record of a line, which comes without its end.
pub fn record(line: &[u8]) -> Result<Record, String> {
    let bytes = bytes(line)?;
    let [_, high, low, kind, data @ .., found] = bytes.as_slice() else {
        return Err(few(bytes.len()));
    };
    let right = checksum(&bytes[..bytes.len() - 1]);
    if *found != right {
        return Err(format!(
            "the checksum is {found:02X} and {right:02X} would be right"
        ));
    }
    let offset = u16::from_be_bytes([*high, *low]);
    match (*kind, data) {
        (DATA, data) => Ok(Record::Data(offset, data.len())),
        (END, []) if offset == 0 => Ok(Record::End),
        (UPPER, &[high, low]) if offset == 0 => Ok(Record::Upper(u16::from_be_bytes([high, low]))),
        (START, [_, _, _, _]) if offset == 0 => Ok(Record::Start),
        (kind, data) => Err(unread(kind, offset, data.len())),
    }
}

/// What is wrong with a type, or with the length or the offset of its record.
fn unread(kind: u8, offset: u16, length: usize) -> String {
    let right = match kind {
        END => 0,
        UPPER => 2,
        START => 4,
        _ => {
            let name = match kind {
                2 => " (extended segment address)",
                3 => " (start segment address)",
                _ => "",
            };
            return format!("type {kind:02X}{name} is not read, only 00, 01, 04 and 05");
        }
    };
    match length == right {
        true => format!("its offset is {offset:04X}, and type {kind:02X} takes 0000"),
        false => format!("it has {}, and type {kind:02X} takes {right}", data(length)),
    }
}

/// So many data bytes, as they stand in a sentence.
pub fn data(count: usize) -> String {
    match count {
        1 => "1 data byte".into(),
        _ => format!("{count} data bytes"),
    }
}

fn few(pairs: usize) -> String {
    format!("it has {pairs} hex pairs, and a record at least {FRAME}: length, offset, type and checksum")
}

/// The bytes of a line: a colon and hex pairs, with as many data bytes as it says.
fn bytes(line: &[u8]) -> Result<Vec<u8>, String> {
    let digits = match line {
        [] => return Err("the line is empty; a line is a colon and hex pairs".into()),
        [b':', digits @ ..] => digits,
        [first, ..] => {
            let first = first.escape_ascii();
            return Err(format!("it begins with '{first}' and not with a colon"));
        }
    };
    let value = |digit: &u8| char::from(*digit).to_digit(16).map(|value| value as u8);
    if let Some(at) = digits.iter().position(|digit| value(digit).is_none()) {
        return Err(no_digit(digits[at], at + 2));
    }
    let values: Vec<u8> = digits.iter().filter_map(value).collect();
    if values.len() % 2 == 1 {
        let count = values.len();
        return Err(format!(
            "it has {count} hex digits, an odd number; they come in pairs"
        ));
    }
    let bytes: Vec<u8> = values
        .chunks(2)
        .map(|pair| pair[0] << 4 | pair[1])
        .collect();
    match bytes.first() {
        Some(&said) if bytes.len() >= FRAME && usize::from(said) != bytes.len() - FRAME => {
            let has = bytes.len() - FRAME;
            Err(format!("it says {} and has {has}", data(said.into())))
        }
        _ if bytes.len() < FRAME => Err(few(bytes.len())),
        _ => Ok(bytes),
    }
}

fn no_digit(byte: u8, column: usize) -> String {
    match byte {
        b'\r' => format!("it has a CR in column {column} that no LF follows"),
        _ => format!(
            "'{}' in column {column} is no hex digit",
            byte.escape_ascii()
        ),
    }
}

#[cfg(test)]
mod tests {
    use super::*;

    #[test]
    fn records() {
        for (line, read) in [
            (":0200000480007A", Record::Upper(0x8000)),
            (":02fffe00abcd89", Record::Data(0xFFFE, 2)),
            (":00ABCD0088", Record::Data(0xABCD, 0)),
            (":0400000580000000 77", Record::Start),
            (":00000001FF", Record::End),
        ] {
            let line = line.replace(' ', "");
            assert_eq!(record(line.as_bytes()), Ok(read), "{line}");
        }
    }

    #[test]
    #[rustfmt::skip]
    fn what_is_wrong_is_said() {
        for (line, wrong) in [
            ("", "the line is empty; a line is a colon and hex pairs"),
            (" :00000001FF", "it begins with ' ' and not with a colon"),
            ("\t", "it begins with '\\t' and not with a colon"),
            (":0000000gFF", "'g' in column 9 is no hex digit"),
            (":00000001FF ", "' ' in column 12 is no hex digit"),
            (":00000001FF\r", "it has a CR in column 12 that no LF follows"),
            (":00000001F", "it has 9 hex digits, an odd number; they come in pairs"),
            (":", "it has 0 hex pairs, and a record at least 5: length, offset, type and checksum"),
            (":00000001", "it has 4 hex pairs, and a record at least 5: length, offset, type and checksum"),
            (":00000001FF00", "it says 0 data bytes and has 1"),
            (":0100000001", "it says 1 data byte and has 0"),
            (":00000001FE", "the checksum is FE and FF would be right"),
            (":00000002FE", "type 02 (extended segment address) is not read, only 00, 01, 04 and 05"),
            (":00000003FD", "type 03 (start segment address) is not read, only 00, 01, 04 and 05"),
            (":000000FF01", "type FF is not read, only 00, 01, 04 and 05"),
            (":0100000100FE", "it has 1 data byte, and type 01 takes 0"),
            (":00000101FE", "its offset is 0001, and type 01 takes 0000"),
            (":03000004800000 79", "it has 3 data bytes, and type 04 takes 2"),
            (":020100048000 79", "its offset is 0100, and type 04 takes 0000"),
            (":020000058000 79", "it has 2 data bytes, and type 05 takes 4"),
            (":0480000580000000 F7", "its offset is 8000, and type 05 takes 0000"),
        ] {
            // Spaces set checksums apart here; those that are meant stand alone.
            let line = if line.trim() == line { line.replace(' ', "") } else { line.into() };
            assert_eq!(record(line.as_bytes()), Err(wrong.into()), "{line}");
        }
    }
}
