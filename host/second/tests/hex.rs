//! Chapter 11, sentence by sentence: each with what it lets pass and the nearest text that it does not.

use second::{load_hex, Loaded};

const MEMORY: usize = 2 * 4_096;
/// What memory holds before: no test stores it.
const OLD: u8 = 0x5A;
const UPPER: &str = ":020000048000 7A";
const END: &str = ":00000001FF";

const LOADED: Loaded = Loaded {
    refusal: 0,
    line: 0,
    start: None,
};

/// A record without its line end. The checksum is worked out here, so the tests of the checksum do not use it.
fn record(kind: u8, offset: u16, data: &[u8]) -> String {
    let mut bytes = vec![data.len() as u8];
    bytes.extend(offset.to_be_bytes());
    bytes.push(kind);
    bytes.extend(data);
    let sum: u32 = bytes.iter().map(|&byte| u32::from(byte)).sum();
    bytes.push((256 - sum % 256) as u8);
    let digits: String = bytes.iter().map(|byte| format!("{byte:02X}")).collect();
    format!(":{digits}")
}

/// Memory after a text, and the answer. Spaces in a text are for readers, `_` is a space that is meant.
fn loaded_into(length: usize, text: &str) -> (Loaded, Vec<u8>) {
    let text = text.replace(' ', "").replace('_', " ");
    let mut memory = vec![OLD; length];
    let answer = load_hex(&mut memory, text.as_bytes());
    (answer, memory)
}

/// Lines that must be loaded: the start address, and memory.
fn loads(lines: &[&str]) -> (Option<u64>, Vec<u8>) {
    let (answer, memory) = loaded_into(MEMORY, &lines.join("\n"));
    assert_eq!((answer.refusal, answer.line), (0, 0), "{lines:?}");
    (answer.start, memory)
}

/// A text that must be refused with this line, and change nothing.
#[track_caller]
fn refused(text: &str, line: u64) {
    let (answer, memory) = loaded_into(MEMORY, text);
    let expected = Loaded {
        refusal: 6,
        line,
        start: None,
    };
    assert_eq!(answer, expected, "{text:?}");
    assert!(memory.iter().all(|&byte| byte == OLD), "{text:?}");
}

#[track_caller]
fn taken(text: &str) {
    let (answer, _) = loaded_into(MEMORY, text);
    assert_eq!((answer.refusal, answer.line), (0, 0), "{text:?}");
}

/// A line between an upper address and an end, with which it is line 2 of a text that is otherwise right.
#[track_caller]
fn line_taken(line: &str) {
    taken(&format!("{UPPER}\n{line}\n{END}\n"));
}

#[track_caller]
fn line_refused(line: &str) {
    refused(&format!("{UPPER}\n{line}\n{END}\n"), 2);
}

/// Lines as generators write them, with checksums that others worked out.
#[test]
fn a_small_file() {
    let (start, memory) = loads(&[
        ":020000048000 7A",
        ":10010000 214601360121470136007EFE09D21901 40",
        ":0B0010006164647265737320676170 A7",
        ":0400000580000104 72",
        ":00000001 FF",
    ]);
    assert_eq!(start, Some(0x8000_0104));
    assert_eq!(memory[0x0F], OLD);
    assert_eq!(&memory[0x10..0x1B], b"address gap");
    assert_eq!(memory[0x1B], OLD);
    let sixteen = [
        0x21, 0x46, 0x01, 0x36, 0x01, 0x21, 0x47, 0x01, 0x36, 0x00, 0x7E, 0xFE, 0x09, 0xD2, 0x19,
        0x01,
    ];
    assert_eq!(memory[0x100..0x110], sixteen);
    assert_eq!((memory[0xFF], memory[0x110]), (OLD, OLD));
}

#[test]
fn types_00_01_04_and_05_are_read_and_no_other() {
    for kind in 0..=255 {
        let data: &[u8] = match kind {
            4 => &[0x80, 0],
            _ => &[0x80, 0, 0, 0],
        };
        match kind {
            0 | 4 | 5 => line_taken(&record(kind, 0, data)),
            1 => taken(&format!("{UPPER}\n{}", record(1, 0, &[]))),
            _ => {
                line_refused(&record(kind, 0, data));
                line_refused(&record(kind, 0, &[]));
                line_refused(&record(kind, 0, &[0x80, 0]));
            }
        }
    }
}

#[test]
fn the_last_start_address_is_handed_back_and_sets_nothing() {
    let start = |address: u32| record(5, 0, &address.to_be_bytes());
    assert_eq!(loads(&[END]).0, None);
    assert_eq!(loads(&[&start(0), END]).0, Some(0));
    assert_eq!(loads(&[&start(u32::MAX), END]).0, Some(0xFFFF_FFFF));
    let last = loads(&[&start(0x8000_0004), &start(0x1234_5678), END]);
    assert_eq!(last.0, Some(0x1234_5678));
    // The upper address stays what type 04 made it, and no byte is stored.
    let byte = record(0, 2, &[7]);
    let (_, memory) = loads(&[UPPER, &start(0x9000_0000), &byte, END]);
    assert_eq!(memory[..4], [OLD, OLD, 7, OLD]);
    assert!(memory[4..].iter().all(|&byte| byte == OLD));
    // A refused text has none.
    refused(&format!("{}\n:", start(0x8000_0000)), 2);
}

#[test]
fn lines_end_in_lf_or_cr_lf_and_the_last_may_lack_its_end() {
    let byte = record(0, 0, &[7]);
    for ends in [
        ["\n", "\n", "\n"],
        ["\r\n", "\r\n", "\r\n"],
        ["\n", "\r\n", "\n"],
        ["\r\n", "\n", "\r\n"],
        ["\n", "\n", ""],
        ["\r\n", "\r\n", ""],
    ] {
        taken(&format!(
            "{UPPER}{}{byte}{}{END}{}",
            ends[0], ends[1], ends[2]
        ));
    }
    // A CR that no LF follows belongs to its line, and so does all that stands behind it.
    refused(&format!("{UPPER}\r{byte}\n{END}\n"), 1);
    refused(&format!("{UPPER}\r\r\n{byte}\n{END}\n"), 1);
    refused(&format!("{UPPER}\n{byte}\r{END}\n"), 2);
    refused(&format!("{UPPER}\n{byte}\n{END}\r"), 3);
    refused(&format!("{UPPER}\n{byte}\n\r{END}\n"), 3);
    // Nothing else ends a line.
    refused(&format!("{UPPER}\u{b}{byte}\n{END}\n"), 1);
    refused(&format!("{UPPER}\0{byte}\n{END}\n"), 1);
    refused(&format!("{UPPER}{byte}\n{END}\n"), 1);
}

#[test]
fn an_empty_line_is_malformed() {
    refused(&format!("\n{END}\n"), 1);
    refused(&format!("\r\n{END}\n"), 1);
    refused(&format!("{UPPER}\n\n{END}\n"), 2);
    refused(&format!("{UPPER}\n\r\n{END}\n"), 2);
    refused("\n", 1);
    refused("\r\n", 1);
}

#[test]
fn a_line_is_a_colon_and_hex_pairs_in_either_case() {
    for line in [
        ":02000000ABCD 86",
        ":02000000abcd86",
        ":02000000aBcD86",
        ":02000000AbCd86",
    ] {
        line_taken(line);
    }
    for line in [
        "02000000ABCD86",
        "_:02000000ABCD86",
        "::02000000ABCD86",
        ";02000000ABCD86",
        ":_02000000ABCD86",
        ":02000000ABCD86_",
        ":02000000ABCD8600",
        ":02000000ABCD860",
        ":02000000ABCD8",
        ":02000000ABCD",
        ":02000000ABC86",
        ":0x000000ABCD86",
        ":+2000000ABCD86",
        ":",
        ":0",
        ":02",
        "_",
        "x",
    ] {
        line_refused(line);
    }
}

/// Every byte in the place of a digit: the twenty-two digits are taken where the rest is right for them.
#[test]
fn only_hex_digits_are_digits() {
    for byte in 0..=255u8 {
        let value = char::from(byte).to_digit(16);
        for place in [0, 1] {
            let mut pair = *b"00";
            pair[place] = byte;
            let value = value.map_or(0, |value| (value as u8) << (4 - 4 * place));
            let mut text = UPPER.replace(' ', "").into_bytes();
            text.extend(b"\n:01000000");
            text.extend(pair);
            text.extend(format!("{:02x}\n{END}", 255 - value).bytes());
            let mut memory = vec![OLD; MEMORY];
            let answer = load_hex(&mut memory, &text);
            match byte.is_ascii_hexdigit() {
                true => assert_eq!((answer, memory[0]), (LOADED, value), "{byte:#x}"),
                false => assert_eq!((answer.refusal, answer.line), (6, 2), "{byte:#x}"),
            }
        }
    }
}

#[test]
fn a_line_has_as_many_data_bytes_as_it_says() {
    for length in [0, 1, 2, 15, 16, 17, 254, 255] {
        let line = record(0, 0, &vec![1; length]);
        line_taken(&line);
        // The same with a number too small and too large by one, and the checksum right for it.
        let rest = &line[3..line.len() - 2];
        let sum = u8::from_str_radix(&line[line.len() - 2..], 16).unwrap();
        for (said, sum) in [
            (length as u8).wrapping_sub(1),
            (length as u8).wrapping_add(1),
        ]
        .into_iter()
        .zip([sum.wrapping_add(1), sum.wrapping_sub(1)])
        {
            line_refused(&format!(":{said:02X}{rest}{sum:02X}"));
        }
    }
    assert_eq!(loads(&[&record(0, 0, &[]), END]).1, [OLD; MEMORY]);
}

#[test]
fn the_other_types_have_their_number_of_bytes_and_offset_0000() {
    for (kind, right) in [(1, 0), (4, 2), (5, 4)] {
        for length in 0..=6 {
            let mut data = vec![0x80, 0, 0, 0, 0, 0];
            data.truncate(length);
            for offset in [0, 1, 0x10, 0x100, 0x8000] {
                let line = record(kind, offset, &data);
                match (kind, length == right && offset == 0) {
                    (1, true) => taken(&line),
                    (1, false) => refused(&line, 1),
                    (_, true) => line_taken(&line),
                    (_, false) => line_refused(&line),
                }
            }
        }
    }
}

#[test]
fn the_checksum_makes_the_sum_zero() {
    line_taken(":01000000 FF00");
    for wrong in ["01", "FF", "80", "10"] {
        line_refused(&format!(":01000000FF{wrong}"));
    }
    // It is looked at in every type, and is not the sum itself.
    line_refused(":0100000003 04");
    line_taken(":0100000003 FC");
    refused(":00000001 FE", 1);
    refused(":00000001 01", 1);
    refused(&format!(":020000048000 7B\n{END}"), 1);
    refused(&format!(":0400000580000000 78\n{END}"), 1);
    taken(&format!(":0400000580000000 77\n{END}"));
}

#[test]
fn the_upper_address_is_0_until_a_type_04() {
    let byte = record(0, 0, &[7]);
    refused(&format!("{byte}\n{UPPER}\n{END}"), 1);
    refused(&format!("{}\n{byte}\n{END}", record(4, 0, &[0, 0x80])), 2);
    // The last one counts.
    let other = record(4, 0, &[0x80, 1]);
    refused(&format!("{UPPER}\n{other}\n{byte}\n{END}"), 3);
    taken(&format!("{other}\n{UPPER}\n{byte}\n{END}"));
}

#[test]
fn addresses_are_physical_and_memory_begins_at_0x80000000() {
    let at = |upper: u16, offset| {
        let upper = record(4, 0, &upper.to_be_bytes());
        format!("{upper}\n{}\n{END}", record(0, offset, &[7]))
    };
    for (upper, offset, place) in [(0x8000, 0, 0), (0x8000, 1, 1), (0x8000, 0x1FFF, 0x1FFF)] {
        let (answer, memory) = loaded_into(MEMORY, &at(upper, offset));
        assert_eq!(answer, LOADED);
        let stored: Vec<usize> = (0..MEMORY).filter(|&at| memory[at] != OLD).collect();
        assert_eq!((stored, memory[place]), (vec![place], 7));
    }
    for (upper, offset) in [
        (0x7FFF, 0xFFFF),
        (0x8000, 0x2000),
        (0x8001, 0),
        (0, 0),
        (0x0080, 0),
        (0xFFFF, 0xFFFF),
    ] {
        refused(&at(upper, offset), 2);
    }
}

#[test]
fn every_byte_of_the_data_has_to_be_in_memory() {
    line_taken(&record(0, 0x1FFC, &[1, 2, 3, 4]));
    line_refused(&record(0, 0x1FFD, &[1, 2, 3, 4]));
    line_refused(&record(0, 0x1FFF, &[1; 255]));
    let before = record(4, 0, &[0x7F, 0xFF]);
    refused(
        &format!("{before}\n{}\n{END}", record(0, 0xFFFE, &[1; 4])),
        2,
    );
    // No bytes are nowhere outside.
    for upper in [0, 0x7FFF, 0x8000, 0x8001, 0xFFFF] {
        let upper = record(4, 0, &u16::to_be_bytes(upper));
        for offset in [0, 0x1FFF, 0x2000, 0xFFFF] {
            taken(&format!("{upper}\n{}\n{END}", record(0, offset, &[])));
        }
    }
}

/// A record over 65,535 goes on behind it, and the next one is where it was.
#[test]
fn offsets_add_on_without_wrapping() {
    let data: Vec<u8> = (1..=16).collect();
    let text = format!(
        "{UPPER}\n{}\n{}\n{END}",
        record(0, 0xFFF8, &data),
        record(0, 4, &[99])
    );
    let (answer, memory) = loaded_into(1 << 17, &text);
    assert_eq!(answer, LOADED);
    assert_eq!(memory[0xFFF8..0x1_0008], data);
    assert_eq!((memory[0], memory[4], memory[0x1_0008]), (OLD, 99, OLD));
    let (answer, memory) = loaded_into(1 << 16, &text);
    assert_eq!((answer.refusal, answer.line), (6, 2));
    assert_eq!(memory, vec![OLD; 1 << 16]);
    // Past 2^32 there is no memory either, nor at 0.
    let last = record(4, 0, &[0xFF, 0xFF]);
    refused(&format!("{last}\n{}\n{END}", record(0, 0xFFFF, &[1; 4])), 2);
}

#[test]
fn refusal_2_comes_first() {
    for length in [
        0, 1, 4_095, 4_097, 1_048_575, 1_048_577, 1_052_672, 2_097_152,
    ] {
        for text in ["", END, "x\n", UPPER] {
            let (answer, memory) = loaded_into(length, text);
            let expected = Loaded {
                refusal: 2,
                line: 0,
                start: None,
            };
            assert_eq!(answer, expected, "{length} {text:?}");
            assert_eq!(memory, vec![OLD; length]);
        }
    }
    for length in [4_096, 8_192, 1_048_576] {
        assert_eq!(loaded_into(length, END).0, LOADED);
        assert_eq!(loaded_into(length, "").0.refusal, 6);
    }
}

#[test]
fn the_first_wrong_line_is_named() {
    let good = record(0, 0, &[7]);
    let wrong = [
        "x".to_string(),
        String::new(),
        ":0100000007F9".to_string(),
        record(2, 0, &[0x80, 0]),
        record(0, 0x2000, &[7]),
        record(1, 1, &[]),
    ];
    for first in &wrong {
        refused(&format!("{first}\n{END}"), 1);
        for later in &wrong {
            refused(
                &format!("{UPPER}\n{good}\n{first}\n{good}\n{later}\n{END}"),
                3,
            );
            // What follows the end is named only where nothing was wrong before it.
            refused(&format!("{UPPER}\n{first}\n{END}\n{later}\n"), 2);
            refused(&format!("{UPPER}\n{END}\n{first}\n{later}\n"), 3);
        }
        // Nor does a missing end count before it.
        refused(&format!("{UPPER}\n{first}\n{good}\n"), 2);
    }
}

#[test]
fn a_missing_end_has_the_number_after_the_last_line() {
    refused("", 1);
    refused(UPPER, 2);
    refused(&format!("{UPPER}\n"), 2);
    refused(&format!("{UPPER}\r\n"), 2);
    refused(&format!("{UPPER}\n{UPPER}\n{UPPER}"), 4);
    refused(&format!("{UPPER}\n{UPPER}\n{UPPER}\n"), 4);
}

#[test]
fn text_after_the_end_record_is_named_whatever_it_is() {
    taken(END);
    taken(&format!("{END}\n"));
    taken(&format!("{END}\r\n"));
    for after in ["\n", "\r", "\r\n", "_", "\0", "x", END, UPPER, "\u{1a}"] {
        refused(&format!("{END}\n{after}"), 2);
        refused(&format!("{UPPER}\r\n{END}\r\n{after}"), 3);
    }
    // On its own line it makes that one malformed.
    for after in ["_", "\r\r", "x", "00", "\u{1a}"] {
        refused(&format!("{UPPER}\n{END}{after}"), 2);
        refused(&format!("{UPPER}\n{END}{after}\n"), 2);
    }
    refused(&format!("{UPPER}\n{END}\r"), 2);
}

#[test]
fn a_refused_text_changes_no_memory() {
    let rows: Vec<String> = (0..256)
        .map(|row| record(0, 32 * row, &[row as u8; 32]))
        .collect();
    let good = format!("{UPPER}\n{}\n{END}\n", rows.join("\n"));
    let (answer, memory) = loaded_into(MEMORY, &good);
    assert_eq!(answer, LOADED);
    assert!((0..MEMORY).all(|at| memory[at] == (at / 32) as u8));
    refused(&format!("{UPPER}\n{}\n", rows.join("\n")), 258);
    refused(&format!("{good}x"), 259);
}

#[test]
fn the_later_record_wins() {
    let (_, memory) = loads(&[
        UPPER,
        &record(0, 0, &[1, 1, 1, 1]),
        &record(0, 1, &[2, 2]),
        &record(0, 2, &[3]),
        &record(0, 3, &[]),
        END,
    ]);
    assert_eq!(memory[..5], [1, 2, 3, 1, OLD]);
    let (_, memory) = loads(&[UPPER, &record(0, 1, &[2, 2]), &record(0, 0, &[1; 4]), END]);
    assert_eq!(memory[..5], [1, 1, 1, 1, OLD]);
}
