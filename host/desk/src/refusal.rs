//! Refusals 1 to 4 in words: which field or rule exactly, and what would be right.
//!
//! The desk asks `memory` before it makes memory of a size; the rest explains what the hart refused.

use crate::map::MOST;
use formats::csr::field::*;
use formats::leaf::PAGE;
use sporhulma::{word, Hart, MOST_STEPS, MSTATUS_CLEAR, REST};

/// Most bytes of memory that a call takes.
pub const MEMORY: u64 = 1 << 20;

/// UXL and SXL, which are 2 in every hart.
const XL_FIELDS: u64 = UXL | SXL;

/// Why a memory of so many bytes is refused.
pub fn memory(length: u64) -> Option<String> {
    let below = length - length % PAGE;
    match length {
        0 => Some("0 bytes are no memory; try 4096 or more, for instance 64K".into()),
        _ if length > MEMORY => Some(format!(
            "{length} is over {MEMORY} (1M), the most that the hart takes"
        )),
        _ if below == 0 => Some(format!("{length} is not a multiple of 4096; try 4096")),
        _ if length > below => {
            let above = below + PAGE;
            Some(format!(
                "{length} is not a multiple of 4096; try {below} or {above}"
            ))
        }
        _ => None,
    }
}

/// Why a map is refused.
fn map(words: &[u64]) -> Option<String> {
    if words.len() % 2 == 1 {
        return Some(format!("the map has {} words, an odd number", words.len()));
    }
    if words.len() > 2 * MOST {
        return Some(format!(
            "the map has {} entries, over {MOST}",
            words.len() / 2
        ));
    }
    let pages: Vec<u64> = words.iter().step_by(2).copied().collect();
    if let Some(page) = pages.iter().find(|&&page| page >> 27 != 0) {
        return Some(format!("page number {page:#x} has more than 27 bits"));
    }
    let pair = pages.windows(2).find(|pair| pair[0] >= pair[1])?;
    Some(format!(
        "page number {:#x} does not rise above {:#x} before it",
        pair[1], pair[0]
    ))
}

/// What is wrong with a word that is one of `rest`, if anything is.
fn field(index: usize, value: u64) -> Option<String> {
    match index {
        word::PC => multiple(value, 4),
        word::SSP => multiple(value, 8),
        word::MODE if ![0, 1, 3].contains(&value) => {
            Some(format!("{value} is no mode; try 0, 1 or 3"))
        }
        word::ELP if value > 1 => Some(format!("{value} is neither 0 nor 1")),
        word::STVEC | word::SEPC | word::MTVEC | word::MEPC => within(value, !3, value & !3),
        word::SATP if value & !(0xf << SATP_MODE_SHIFT) == 0 && ![BARE, SV39].contains(&value) => {
            Some(format!(
                "{value:#x} has MODE {}; try MODE 0 (Bare, 0x0) or 8 (Sv39, 0x8000000000000000)",
                value >> SATP_MODE_SHIFT
            ))
        }
        word::SATP => within(value, SV39, value & SV39),
        word::SENVCFG | word::MENVCFG => masking(value, ENVCFG_FIELDS),
        word::MSECCFG => masking(value, MSECCFG_FIELDS),
        word::MEDELEG => within(value, MEDELEG_FIELDS, value & MEDELEG_FIELDS),
        word::MSTATUS => mstatus(value),
        _ => None,
    }
}

fn multiple(value: u64, of: u64) -> Option<String> {
    let below = value - value % of;
    let above = below.wrapping_add(of);
    let line = || format!("{value:#x} is not a multiple of {of}; try {below:#x} or {above:#x}");
    (value != below).then(line)
}

/// The bits outside `mask` are always 0; `right` is a word that the hart takes.
fn within(value: u64, mask: u64, right: u64) -> Option<String> {
    let line = || {
        format!(
            "{value:#x} sets bits that are always 0 ({:#x}); try {right:#x}",
            value & !mask
        )
    };
    (value & !mask != 0).then(line)
}

/// The bits of `mask`, and in `field` 0 instead of the value that no write leaves there.
fn taken(value: u64, mask: u64, field: u64, never: u64) -> u64 {
    match value & field == never {
        true => value & mask & !field,
        false => value & mask,
    }
}

/// A CSR with PMM.
fn masking(value: u64, mask: u64) -> Option<String> {
    let right = taken(value, mask, PMM, 1 << PMM_SHIFT);
    let line = || format!("{value:#x} has PMM (bits 33:32) 1; try 0, 2 or 3 there: {right:#x}");
    within(value, mask, right).or_else(|| (value & PMM == 1 << PMM_SHIFT).then(line))
}

fn mstatus(value: u64) -> Option<String> {
    let right = taken(value, MSTATUS_FIELDS, MPP, 2 << MPP_SHIFT) | MSTATUS_CLEAR;
    if value & XL_FIELDS != MSTATUS_CLEAR {
        return Some(format!(
            "{value:#x} has UXL and SXL other than 2; try {right:#x}"
        ));
    }
    if value & MPP == 2 << MPP_SHIFT {
        return Some(format!(
            "{value:#x} has MPP (bits 12:11) 2, which is no mode; try {right:#x}"
        ));
    }
    within(value, MSTATUS_FIELDS | MSTATUS_CLEAR, right)
}

/// The option of `desk run` that gives a word of `rest`.
fn place(index: usize) -> String {
    match index {
        word::PC | word::MODE | word::ELP | word::SSP => format!("--{}", REST[index]),
        _ => format!("--csr {}", REST[index]),
    }
}

/// All that is wrong with a hart, each with its place.
fn hart(hart: &Hart) -> Vec<String> {
    let zero = (hart.x[0] != 0).then(|| format!("--x zero: it is {:#x} and must be 0", hart.x[0]));
    let wrong = |(index, &value)| Some(format!("{}: {}", place(index), field(index, value)?));
    zero.into_iter()
        .chain(hart.rest.iter().enumerate().filter_map(wrong))
        .collect()
}

/// The line that says why the hart refused what it was given.
pub fn explain(number: u64, given: &Hart, length: u64, words: &[u64], budget: u64) -> String {
    let reasons = match number {
        1 => hart(given),
        2 => memory(length)
            .map(|wrong| format!("--memory: {wrong}"))
            .into_iter()
            .collect(),
        3 => map(words)
            .map(|wrong| format!("--map: {wrong}"))
            .into_iter()
            .collect(),
        4 if budget > MOST_STEPS => vec![format!("a run of {budget} steps is over {MOST_STEPS}")],
        _ => Vec::new(),
    };
    match reasons.is_empty() {
        false => format!("{} (the hart's refusal {number})", reasons.join("; ")),
        true => format!(
            "the hart gave refusal {number}, and the desk finds nothing wrong: a fault of the desk"
        ),
    }
}

#[cfg(test)]
mod tests {
    use super::*;

    #[test]
    fn each_refusal_names_its_rule() {
        let fresh = Hart::fresh();
        let mut odd = fresh;
        odd.x[0] = 1;
        odd.rest[word::MODE] = 2;
        odd.rest[word::MSTATUS] |= 2 << 11;
        let line = explain(1, &odd, 4096, &[], 0);
        for part in [
            "--x zero: it is 0x1",
            "--mode: 2 is no mode",
            "--csr mstatus: 0xa00001000 has MPP",
        ] {
            assert!(line.contains(part), "{line}");
        }
        assert!(explain(2, &fresh, 1 << 21, &[], 0).contains("2097152 is over 1048576"));
        assert!(explain(3, &fresh, 4096, &[1], 0).contains("1 words, an odd number"));
        assert!(explain(3, &fresh, 4096, &[1 << 27, 0], 0).contains("more than 27 bits"));
        assert!(explain(3, &fresh, 4096, &[2, 0, 2, 0], 0).contains("0x2 does not rise above 0x2"));
        assert!(explain(3, &fresh, 4096, &[0; 130], 0).contains("65 entries, over 64"));
        assert!(explain(4, &fresh, 4096, &[], 1_000_001).contains("1000001 steps is over 1000000"));
        assert!(explain(1, &fresh, 4096, &[], 0).contains("a fault of the desk"));
    }

    /// The hart itself is asked: what it takes has no line here, what it refuses has one.
    #[test]
    fn the_hart_agrees_about_each_single_bit() {
        let mut mem = vec![0; 4096];
        for (index, name) in REST.iter().enumerate() {
            for bit in 0..64 {
                let mut odd = Hart::fresh();
                odd.rest[index] ^= 1 << bit;
                let refused = sporhulma::run(&mut odd.clone(), &mut mem, &[], 0).refusal == 1;
                assert_eq!(refused, !hart(&odd).is_empty(), "{name} bit {bit}");
            }
        }
    }

    /// What the desk says one should try is taken, also where more than one thing is wrong.
    #[test]
    fn what_would_be_right_is_right() {
        let mut mem = vec![0; 4096];
        for index in (0..REST.len()).filter(|&index| ![word::MODE, word::ELP].contains(&index)) {
            for odd in [u64::MAX, !(2 << 32), !(1 << 11), 0x5555 << 48 | 0x1001] {
                let Some(line) = field(index, odd) else {
                    continue;
                };
                let last = line.rsplit("0x").next().unwrap();
                let digits = last.trim_end_matches(|c: char| !c.is_ascii_hexdigit());
                let mut hart = Hart::fresh();
                hart.rest[index] = u64::from_str_radix(digits, 16).unwrap();
                let refusal = sporhulma::run(&mut hart, &mut mem, &[], 0).refusal;
                assert_eq!(refusal, 0, "{}: {line}", REST[index]);
            }
        }
    }
}
