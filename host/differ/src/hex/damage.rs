//! One thing wrong in a text that was good, in every way that chapter 11 names: each with the line that must be named.

use super::good::{Line, Text, CR_LF, LF};
use crate::case::BASE;
use formats::hex::{line, record, DATA, END, START, UPPER, WINDOW};
use formats::random::Random;

/// Makes a good text wrong and gives the number of the line that must be named, from 1.
pub type Damage = fn(&mut Random, &mut Text) -> u64;

pub const DAMAGES: [(&str, Damage); 46] = [
    // A line that is malformed.
    ("no colon", |random, text| {
        bytes(random, text, |_, line| {
            line.remove(0);
        })
    }),
    ("another byte than a colon", |random, text| {
        bytes(random, text, |random, line| {
            line[0] = random.pick(b";9 S0\0\x1A\xBA")
        })
    }),
    ("a byte before the colon", |random, text| {
        bytes(random, text, |random, line| {
            line.insert(0, random.pick(b" \t:0\0\xBF;"))
        })
    }),
    ("no hex digit", |random, text| {
        bytes(random, text, |random, line| {
            let at = digit(random, line);
            let wrong = [b"/:@G`g OlxX-+\0\x7F".as_slice(), &[line[at] | 0x80]].concat();
            line[at] = random.pick(&wrong);
        })
    }),
    ("a space between digits", |random, text| {
        bytes(random, text, |random, line| {
            let at = digit(random, line);
            line.insert(at, b' ');
        })
    }),
    ("a digit less", |random, text| {
        bytes(random, text, |random, line| {
            let at = digit(random, line);
            line.remove(at);
        })
    }),
    ("a digit more", |random, text| {
        bytes(random, text, |random, line| {
            let at = digit(random, line);
            line.insert(at, random.pick(b"0fA"));
        })
    }),
    ("a pair less", |random, text| {
        bytes(random, text, |random, line| {
            let at = later_pair(random, line);
            line.drain(at..at + 2);
        })
    }),
    ("a pair more", |random, text| {
        bytes(random, text, |random, line| {
            let at = later_pair(random, line);
            line.splice(at..at, *b"00");
        })
    }),
    ("something behind the checksum", |random, text| {
        bytes(random, text, |random, line| {
            let more: &[u8] =
                random.pick(&[b" ", b"\t", b"\0", b"\x1A", b"0", b"00", b"; end", b":"]);
            line.extend(more);
        })
    }),
    ("a line cut off", |random, text| {
        bytes(random, text, |random, line| {
            let rest = 1 + random.below(line.len() as u64 - 1);
            line.truncate(rest as usize);
        })
    }),
    ("length one less", |random, text| {
        fields(random, text, |_, bytes| bytes[0] = bytes[0].wrapping_sub(1))
    }),
    ("length one more", |random, text| {
        fields(random, text, |_, bytes| bytes[0] = bytes[0].wrapping_add(1))
    }),
    ("another length", |random, text| {
        fields(random, text, |random, bytes| {
            bytes[0] = bytes[0].wrapping_add(1 + random.below(255) as u8)
        })
    }),
    ("type 01 with data", |random, text| {
        let data = some(random, &[1, 2, 4]);
        among(random, text, record(END, 0, &data))
    }),
    ("type 04 without two bytes", |random, text| {
        let data = some(random, &[0, 1, 3, 4]);
        among(random, text, record(UPPER, 0, &data))
    }),
    ("type 05 without four bytes", |random, text| {
        let data = some(random, &[0, 2, 3, 5, 8]);
        among(random, text, record(START, 0, &data))
    }),
    ("type 01 with an offset", |random, text| {
        let offset = offset(random);
        among(random, text, record(END, offset, &[]))
    }),
    ("type 04 with an offset", |random, text| {
        let offset = offset(random);
        among(random, text, record(UPPER, offset, &[0x80, 0]))
    }),
    ("type 05 with an offset", |random, text| {
        let offset = offset(random);
        among(random, text, record(START, offset, &[0x80, 0, 0, 0]))
    }),
    ("an empty line first", |random, text| {
        let end = random.pick(&[LF, CR_LF]);
        put(text, 0, "", end)
    }),
    ("an empty line further on", |random, text| {
        grow(text);
        let at = 1 + one_of(random, text.lines.len() - 1);
        let end = random.pick(&[LF, CR_LF]);
        put(text, at, "", end)
    }),
    // What stands between two lines.
    ("a lone CR as a line's end", |random, text| {
        grow(text);
        end(random, text, 1, b"\r")
    }),
    ("a lone CR at the text's end", |_, text| {
        text.lines.last_mut().expect("the end record").end = b"\r";
        text.lines.len() as u64
    }),
    ("CR CR LF", |random, text| end(random, text, 0, b"\r\r\n")),
    ("LF CR", |random, text| end(random, text, 0, b"\n\r") + 1),
    ("no line end", |random, text| {
        grow(text);
        end(random, text, 1, b"")
    }),
    ("another line end", |random, text| {
        let other: &[&'static [u8]] = &[
            b"\x0B",
            b"\x0C",
            b"\x85",
            b"\xE2\x80\xA8",
            b"\0",
            b" \n",
            b"\x1E",
        ];
        let other = random.pick(other);
        end(random, text, 0, other)
    }),
    // A well-formed line that is wrong otherwise.
    ("a wrong checksum", |random, text| {
        checksum(random, text, |random, right| {
            let bit = 1 << random.below(8);
            let anything = random.below(256) as u8;
            random.pick(&[right ^ bit, right.wrapping_neg(), !right, 0, anything])
        })
    }),
    ("another type", |random, text| {
        fields(random, text, |random, bytes| {
            bytes[3] = random.pick(&[2, 2, 3, 3, 6, 7, 8, 0x10, 0x40, 0x80, 0xFF])
        })
    }),
    ("data before an upper address", |random, text| {
        let data = some(random, &[1, 2, 16]);
        let anything = random.word() as u16;
        let offset = random.pick(&[0, 0, anything]);
        put(text, 0, &record(DATA, offset, &data), LF)
    }),
    ("data just before memory", |random, text| {
        let length = random.pick(&[1, 2, 16]);
        outside(random, text, BASE - length, length)
    }),
    ("data over memory's first byte", |random, text| {
        let length = random.pick(&[2, 3, 16, 255]);
        let before = 1 + random.below(length - 1);
        outside(random, text, BASE - before, length)
    }),
    ("data over memory's last byte", |random, text| {
        let length = random.pick(&[2, 3, 16, 255]);
        let within = 1 + random.below(length - 1);
        let end = BASE + text.memory as u64;
        outside(random, text, end - within, length)
    }),
    ("data just behind memory", |random, text| {
        let length = random.pick(&[1, 2, 16, 255]);
        let end = BASE + text.memory as u64;
        outside(random, text, end, length)
    }),
    ("data far from memory", |random, text| {
        let (low, behind) = (random.below(BASE - 4), BASE + 0x10_0000);
        let high = behind + random.below(0x7FE0_0000);
        let address = random.pick(&[0, low, behind, high]);
        outside(random, text, address, 4)
    }),
    ("data past 2^32", |random, text| {
        let length = random.pick(&[2, 16, 255]);
        let within = 1 + random.below(length - 1);
        outside(random, text, (1 << 32) - within, length)
    }),
    // The end of the file.
    ("a missing end", |random, text| {
        text.lines.pop();
        if let (true, Some(last)) = (random.chance(50), text.lines.last_mut()) {
            last.end = &[];
        }
        text.lines.len() as u64 + 1
    }),
    ("an empty text", |_, text| {
        text.lines.clear();
        1
    }),
    ("a second end record", |_, text| {
        after(text, &record(END, 0, &[]), LF)
    }),
    ("a record after the end", |random, text| {
        let data = random.pick(&[UPPER, START]);
        let length = if data == UPPER { 2 } else { 4 };
        after(text, &record(data, 0, &[0x80, 0, 0, 0][..length]), LF)
    }),
    ("an empty line after the end", |random, text| {
        let end = random.pick(&[LF, CR_LF]);
        after(text, "", end)
    }),
    ("a CR after the end", |_, text| after(text, "\r", &[])),
    ("white space after the end", |random, text| {
        let white = random.pick(&[" ", "\t", "  \t "]);
        let end = random.pick(&[LF, &[]]);
        after(text, white, end)
    }),
    ("other text after the end", |random, text| {
        let other = random.pick(&["\u{1A}", "\0", ":", "x", ":00000001FE", "S9030000FC"]);
        let end = random.pick(&[LF, CR_LF, &[]]);
        after(text, other, end)
    }),
    ("an end record further up", |random, text| {
        among(random, text, record(END, 0, &[])) + 1
    }),
];

/// One of so many lines, from 0. Of very many mostly one of the last, whose number is large.
fn one_of(random: &mut Random, lines: usize) -> usize {
    let lines = lines as u64;
    let last = lines.min(8);
    let at = match lines > 255 && random.chance(75) {
        true => lines - last + random.below(last),
        false => random.below(lines),
    };
    at as usize
}

/// A line of a text, with its number.
fn any<'a>(random: &mut Random, text: &'a mut Text) -> (&'a mut Line, u64) {
    let at = one_of(random, text.lines.len());
    (&mut text.lines[at], at as u64 + 1)
}

/// Changes the bytes of a line.
fn bytes(random: &mut Random, text: &mut Text, change: fn(&mut Random, &mut Vec<u8>)) -> u64 {
    let (line, number) = any(random, text);
    change(random, &mut line.bytes);
    number
}

/// The place of a digit.
fn digit(random: &mut Random, line: &[u8]) -> usize {
    1 + random.below(line.len() as u64 - 1) as usize
}

/// The place of a pair that is not the first, which says the length.
fn later_pair(random: &mut Random, line: &[u8]) -> usize {
    let pairs = (line.len() as u64 - 1) / 2;
    3 + 2 * random.below(pairs - 1) as usize
}

/// Changes what a line says, and makes the checksum right for it.
fn fields(random: &mut Random, text: &mut Text, change: fn(&mut Random, &mut Vec<u8>)) -> u64 {
    let (found, number) = any(random, text);
    let mut bytes = values(&found.bytes);
    bytes.pop();
    change(random, &mut bytes);
    found.bytes = line(&bytes).into_bytes();
    number
}

/// Puts another checksum in the place of the right one; `other` may come to the right one.
fn checksum(random: &mut Random, text: &mut Text, other: fn(&mut Random, u8) -> u8) -> u64 {
    let (line, number) = any(random, text);
    let right = *values(&line.bytes).last().expect("a checksum");
    let wrong = match other(random, right) {
        other if other == right => right ^ 1,
        other => other,
    };
    line.bytes.truncate(line.bytes.len() - 2);
    line.bytes.extend(format!("{wrong:02X}").bytes());
    number
}

/// The bytes that a good line says.
fn values(line: &[u8]) -> Vec<u8> {
    let value = |digit: u8| char::from(digit).to_digit(16).expect("a hex digit") as u8;
    let pairs = line[1..].chunks(2);
    pairs
        .map(|pair| value(pair[0]) << 4 | value(pair[1]))
        .collect()
}

fn some(random: &mut Random, lengths: &[usize]) -> Vec<u8> {
    let length = random.pick(lengths);
    (0..length).map(|_| random.word() as u8).collect()
}

/// An offset that is not 0.
fn offset(random: &mut Random) -> u16 {
    let anything = 1 + random.below(0xFFFF) as u16;
    random.pick(&[1, 0x10, 0x100, 0x8000, anything])
}

/// A line more, at a place.
fn put(text: &mut Text, at: usize, line: &str, end: &'static [u8]) -> u64 {
    let bytes = line.as_bytes().to_vec();
    text.lines.insert(at, Line { bytes, end });
    at as u64 + 1
}

/// A line more, anywhere before the end record.
fn among(random: &mut Random, text: &mut Text, line: String) -> u64 {
    let at = one_of(random, text.lines.len());
    let end = random.pick(&[LF, CR_LF]);
    put(text, at, &line, end)
}

/// A line more, behind the end record.
fn after(text: &mut Text, line: &str, end: &'static [u8]) -> u64 {
    let last = text.lines.last_mut().expect("the end record");
    if last.end.is_empty() {
        last.end = LF;
    }
    put(text, text.lines.len(), line, end)
}

/// At least two lines. An upper address in front changes nothing: every record of data has its own before it.
fn grow(text: &mut Text) {
    if text.lines.len() == 1 {
        put(text, 0, &record(UPPER, 0, &[0x80, 0]), LF);
    }
}

/// Another end for any line but the last `spared`.
fn end(random: &mut Random, text: &mut Text, spared: usize, end: &'static [u8]) -> u64 {
    let at = one_of(random, text.lines.len() - spared);
    text.lines[at].end = end;
    at as u64 + 1
}

/// An upper address and a record of so many bytes, of which one at least lies outside memory, anywhere before the end.
fn outside(random: &mut Random, text: &mut Text, address: u64, length: u64) -> u64 {
    let data = some(random, &[length as usize]);
    let upper = u16::try_from(address / WINDOW).expect("an address of 32 bits");
    let number = among(random, text, record(UPPER, 0, &upper.to_be_bytes()));
    let record = record(DATA, (address % WINDOW) as u16, &data);
    put(text, number as usize, &record, LF)
}
