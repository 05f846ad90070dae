//! Why a text in Intel HEX is refused, in words: a plain second reading of chapter 11, which is told only where it comes to
//! the line that the proved loader names.

use super::line::{data, record, Record};
use crate::refusal::MEMORY;
use formats::hex::WINDOW;
use sporhulma::BASE;

/// So many bytes of a line are shown; of a longer one its start and its end.
const SHOWN: usize = 64;
const HEAD: usize = 44;
const TAIL: usize = 12;

/// What is wrong in the line that the loader names, and the line.
pub fn named(text: &[u8], memory: u64, line: u64) -> String {
    let what = match first(text, memory) {
        Some((own, what)) if own == line => what,
        _ => "the desk has no explanation for this line".into(),
    };
    let content = usize::try_from(line - 1)
        .ok()
        .and_then(|at| lines(text).nth(at));
    match content {
        Some(content) if !content.is_empty() => format!("{what}: '{}'", shown(content)),
        _ => what,
    }
}

/// Whether the first line is a record, so that the text is not a raw image that happens to look like one.
pub fn begins_well(text: &[u8]) -> bool {
    lines(text).next().is_some_and(|line| record(line).is_ok())
}

/// The lines of a text without their ends: LF, or CR LF.
fn lines(text: &[u8]) -> impl Iterator<Item = &[u8]> {
    let lines = text.split_inclusive(|byte| *byte == b'\n');
    lines.map(|line| match line.strip_suffix(b"\n") {
        Some(line) => line.strip_suffix(b"\r").unwrap_or(line),
        None => line,
    })
}

/// The first wrong line and what is wrong with it.
pub fn first(text: &[u8], memory: u64) -> Option<(u64, String)> {
    let (mut upper, mut ended, mut number) = (None, None, 0);
    for line in lines(text) {
        number += 1;
        if let Some(end) = ended {
            let wrong = format!("it follows the end record of line {end}, and nothing may");
            return Some((number, wrong));
        }
        match record(line) {
            Ok(Record::Data(offset, length)) => {
                if let Some(wrong) = outside(upper, offset, length as u64, memory) {
                    return Some((number, wrong));
                }
            }
            Ok(Record::Upper(address)) => upper = Some(address),
            Ok(Record::End) => ended = Some(number),
            Ok(Record::Start) => {}
            Err(wrong) => return Some((number, wrong)),
        }
    }
    let missing = || "the end record is missing; the last line must be :00000001FF".to_string();
    ended.is_none().then(|| (number + 1, missing()))
}

/// What is wrong with so many data bytes at an offset, if one of them lies outside memory.
fn outside(upper: Option<u16>, offset: u16, length: u64, memory: u64) -> Option<String> {
    let start = u64::from(upper.unwrap_or(0)) * WINDOW + u64::from(offset);
    let (end, behind) = (start + length, BASE + memory);
    if length == 0 || start >= BASE && end <= behind {
        return None;
    }
    let place = match length {
        1 => format!("{start:#x}"),
        _ => format!("{start:#x} to {:#x}", end - 1),
    };
    let hint = match upper {
        None => "; no type 04 stands before it".to_string(),
        Some(_) if start >= BASE && end <= BASE + MEMORY => {
            let enough = (end - BASE).next_multiple_of(4096);
            format!("; try --memory {enough} or more")
        }
        Some(_) => String::new(),
    };
    let (data, last) = (data(length as usize), behind - 1);
    Some(format!(
        "it puts {data} at {place}, outside memory, which is {BASE:#x} to {last:#x}{hint}"
    ))
}

/// A line as it can stand in a message: shortened where it is long, and bytes that cannot be printed as escapes.
fn shown(line: &[u8]) -> String {
    match line.len() {
        0..=SHOWN => line.escape_ascii().to_string(),
        length => {
            let (head, tail) = (&line[..HEAD], &line[length - TAIL..]);
            let left = length - HEAD - TAIL;
            format!(
                "{}[{left} more]{}",
                head.escape_ascii(),
                tail.escape_ascii()
            )
        }
    }
}
