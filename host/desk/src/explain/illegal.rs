//! Why an instruction is illegal.

use super::foreign::foreign;
use super::{csrs, family, flow, Verdict};
use crate::names::{mode_name, M, U};
use disasm::Word;
use formats::csr::SSP;
use formats::extensions::absent;
use serde_json::Value;
use sporhulma::{word, Hart};

pub fn verdict(word: u32, why: String) -> Verdict {
    let facts = vec![
        ("word", Value::from(format!("{word:#010x}"))),
        ("reason", Value::from(why.as_str())),
    ];
    Verdict {
        cause: 2,
        tval: word.into(),
        rows: vec![("why", why)],
        facts,
    }
}

/// Why the word is illegal for this hart; none if it is legal.
pub fn reason(hart: &Hart, instruction: u32, family: u64) -> Option<String> {
    let mode = hart.rest[word::MODE];
    let in_mode = mode_name(mode);
    match family {
        family::ILLEGAL => Some(unknown(instruction)),
        family::MRET if mode != M => {
            Some(format!("MRET needs mode M, and the hart is in {in_mode}"))
        }
        family::SRET if mode == U => Some("SRET needs mode S or M, and the hart is in U".into()),
        family::SWAP => flow::missing_enable(hart)
            .map(|enable| format!("a shadow swap in {in_mode} needs {enable}, which is 0")),
        family::CSR => csr(hart, Word(instruction).csr()),
        _ => None,
    }
}

fn csr(hart: &Hart, address: u16) -> Option<String> {
    let mode = hart.rest[word::MODE];
    let Some(name) = disasm::csr_name(address) else {
        let name = csrs::lacking(address).map_or_else(String::new, |name| format!(" ({name})"));
        return Some(format!("the hart has no CSR {address:#05x}{name}"));
    };
    let least = u64::from(address >> 8 & 3);
    if mode < least {
        let (least, mode) = (mode_name(least), mode_name(mode));
        return Some(format!(
            "CSR {name} needs mode {least}, and the hart is in {mode}"
        ));
    }
    // ssp has a rule of its own.
    if address != SSP {
        return None;
    }
    let enable = flow::missing_enable(hart)?;
    Some(format!(
        "CSR ssp in {} needs {enable}, which is 0",
        mode_name(mode)
    ))
}

/// A word that is no instruction of the hart, and what it looks like.
fn unknown(word: u32) -> String {
    const UNKNOWN: &str = "no instruction of this hart has this word";
    if let Some(absent) = absent(word) {
        let name = absent.name.to_uppercase();
        return format!("{UNKNOWN}; it looks like {name} ({})", absent.extension);
    }
    if let Some((name, extension)) = foreign(word) {
        let name = name.to_uppercase();
        return format!(
            "{UNKNOWN}; it looks like {name} ({extension}, which the hart lacks: compile with -march=rv64im)"
        );
    }
    let funct3 = word >> 12 & 7;
    let looks = match word & 0x7f {
        _ if word == 0 => "it is empty memory: the program ran into a place where no code is",
        _ if word & 3 != 3 => "its two low bits are not 11, as in a 16-bit instruction (C)",
        0x2f => "it looks like an atomic memory operation (A)",
        0x07 | 0x27 | 0x43 | 0x47 | 0x4b | 0x4f | 0x53 => "it looks like floating point (F or D)",
        0x0f if funct3 == 1 => "it looks like FENCE.I",
        0x73 if word == 0x1050_0073 => "it is WFI",
        0x73 if word >> 25 == 0b000_1001 && funct3 == 0 => "it looks like SFENCE.VMA",
        _ => return UNKNOWN.into(),
    };
    format!("{UNKNOWN}; {looks}")
}
