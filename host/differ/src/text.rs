//! A case as text, written to a file when the simulators differ, and read back by `differ again`.
//!
//! A line each: the call; every word of the hart that is not 0 by its name; `map` and an entry's one or two words;
//! `memory` and its length; then an address and up to 32 bytes in hexadecimal, without the lines that are all 0.
//! Lines that start with # are comments.

use crate::case::{Call, Case, BASE};
use formats::number::unsigned;
use sporhulma::{Hart, REST};
use std::fmt::Write;

const ROW: usize = 32;
/// No text may ask for more memory than a little over the most that is accepted.
const MOST: u64 = 0x20_0000;

pub fn write(case: &Case) -> String {
    let mut text = match case.call {
        Call::Step => "call step\n".to_string(),
        Call::StepWord(word) => format!("call step_word {word:#010x}\n"),
        Call::Run(budget) => format!("call run {budget}\n"),
    };
    let registers = case
        .hart
        .x
        .iter()
        .enumerate()
        .map(|(n, value)| (format!("x{n}"), value));
    let rest = REST
        .iter()
        .zip(&case.hart.rest)
        .map(|(name, value)| (name.to_string(), value));
    for (name, value) in registers.chain(rest).filter(|(_, value)| **value != 0) {
        let _ = writeln!(text, "{name} {value:#x}");
    }
    for entry in case.map.chunks(2) {
        text.push_str("map");
        for word in entry {
            let _ = write!(text, " {word:#x}");
        }
        text.push('\n');
    }
    let _ = writeln!(text, "memory {}", case.mem.len());
    for (row, bytes) in case.mem.chunks(ROW).enumerate() {
        if bytes.iter().any(|byte| *byte != 0) {
            let _ = write!(text, "{:#x} ", BASE + (row * ROW) as u64);
            for byte in bytes {
                let _ = write!(text, "{byte:02x}");
            }
            text.push('\n');
        }
    }
    text
}

/// Reads what `write` wrote. An error names the line and what would be right.
pub fn read(text: &str) -> Result<Case, String> {
    let mut case = Case::empty();
    case.hart = Hart {
        x: [0; 32],
        rest: [0; 20],
    };
    for (at, line) in text.lines().enumerate() {
        if !line.starts_with('#') && !line.trim().is_empty() {
            read_line(&mut case, line).map_err(|error| format!("line {}: {error}", at + 1))?;
        }
    }
    Ok(case)
}

fn read_line(case: &mut Case, line: &str) -> Result<(), String> {
    let parts: Vec<&str> = line.split_whitespace().collect();
    match parts[..] {
        ["call", "step"] => case.call = Call::Step,
        ["call", "step_word", word] => {
            let word = u32::try_from(number(word)?);
            case.call = Call::StepWord(word.map_err(|_| "a word has 32 bits".to_string())?);
        }
        ["call", "run", budget] => case.call = Call::Run(number(budget)?),
        ["map", word] => case.map.push(number(word)?),
        ["map", first, second] => case.map.extend([number(first)?, number(second)?]),
        ["memory", len] => {
            let len = number(len)?;
            if len > MOST {
                return Err(format!("memory of {len} bytes: the most is {MOST}"));
            }
            case.mem.resize(len as usize, 0);
        }
        [address, bytes] if address.starts_with("0x") => read_row(case, number(address)?, bytes)?,
        [name, value] if name != "call" => *word_mut(&mut case.hart, name)? = number(value)?,
        _ => return Err(format!("'{line}': right is 'call step', 'x1 0x2', 'map 0x1 0xcf', 'memory 4096' or '0x80000000 00ff'")),
    }
    Ok(())
}

fn word_mut<'a>(hart: &'a mut Hart, name: &str) -> Result<&'a mut u64, String> {
    if let Some(at) = (0..32).find(|n| format!("x{n}") == name) {
        return Ok(&mut hart.x[at]);
    }
    match REST.iter().position(|known| *known == name) {
        Some(at) => Ok(&mut hart.rest[at]),
        None => Err(format!(
            "'{name}' is no word of a hart: right are x0 to x31, {}",
            REST.join(", ")
        )),
    }
}

fn read_row(case: &mut Case, address: u64, digits: &str) -> Result<(), String> {
    if !digits.is_ascii() || digits.len() % 2 != 0 {
        return Err(format!(
            "'{digits}': right are two hexadecimal digits for each byte"
        ));
    }
    let len = (digits.len() / 2) as u64;
    let start = address.wrapping_sub(BASE);
    if start
        .checked_add(len)
        .is_none_or(|end| end > case.mem.len() as u64)
    {
        return Err(format!(
            "{len} bytes at {address:#x} lie outside memory: a 'memory' line comes first"
        ));
    }
    for at in 0..len as usize {
        let byte = &digits[2 * at..2 * at + 2];
        case.mem[start as usize + at] = u8::from_str_radix(byte, 16)
            .map_err(|_| format!("'{byte}' is no byte: right are two hexadecimal digits"))?;
    }
    Ok(())
}

/// A number of 64 bits.
fn number(text: &str) -> Result<u64, String> {
    unsigned(text).map_err(|_| no_number(text))
}

pub fn no_number(text: &str) -> String {
    format!("'{text}' is no number of 64 bits: right is 17 or 0x11")
}

#[cfg(test)]
mod tests {
    use super::*;
    use crate::{runs, steps};

    #[test]
    fn a_case_reads_back_to_the_same_case() {
        let mut case = Case::empty();
        for number in 0..300 {
            steps::make(3, number, &mut case);
            assert_eq!(read(&write(&case)).as_ref(), Ok(&case), "step {number}");
            runs::make(3, number, &mut case);
            assert_eq!(read(&write(&case)).as_ref(), Ok(&case), "run {number}");
        }
    }

    #[test]
    fn a_wrong_line_is_named() {
        let wrong = [
            ("call step\nfoo 1", "line 2: 'foo' is no word"),
            ("x1 0xg", "line 1: '0xg' is no number"),
            ("x32 1", "line 1: 'x32' is no word"),
            (
                "memory 4096\n0x80000fff 0011",
                "line 2: 2 bytes at 0x80000fff lie outside",
            ),
            ("memory 4096\n0x80000000 0", "line 2: '0': right are two"),
            ("memory 4096\n0x80000000 zz", "line 2: 'zz' is no byte"),
            ("memory 99999999", "line 1: memory of 99999999"),
            ("call step_word 0x100000000", "line 1: a word has 32 bits"),
            ("call jump", "line 1: 'call jump': right is"),
            ("map 1 2 3", "line 1: 'map 1 2 3': right is"),
        ];
        for (text, start) in wrong {
            let error = read(text).expect_err(text);
            assert!(error.starts_with(start), "{text:?} gave {error:?}");
        }
    }
}
