//! SYSTEM instructions (ECALL, EBREAK, the returns, CSR instructions, Zimop and the shadow stack's
//! words among it) and the shadow swap.

use crate::fields::Word;
use crate::names::csr_name;

pub fn system(word: Word) -> Option<String> {
    match word.funct3() {
        0 => exact(word.0).map(str::to_string),
        4 => may_be_operation(word),
        _ => Some(csr(word)),
    }
}

/// The instructions that are one word each.
fn exact(word: u32) -> Option<&'static str> {
    match word {
        0x0000_0073 => Some("ecall"),
        0x0010_0073 => Some("ebreak"),
        0x1020_0073 => Some("sret"),
        0x3020_0073 => Some("mret"),
        _ => None,
    }
}

/// The write of zero to the read-only CSR cycle, which GNU calls `unimp`: it is illegal on every
/// hart.
const UNIMP: u32 = 0xc000_1073;

fn csr(word: Word) -> String {
    let address = word.csr();
    let csr = csr_name(address).map_or_else(|| format!("{address:#x}"), str::to_string);
    let operation = ["w", "s", "c"][(word.funct3() & 3) - 1];
    let (immediate, source) = match word.funct3() & 4 {
        0 => ("", word.rs1_name().to_string()),
        _ => ("i", word.rs1().to_string()),
    };
    match (word.funct3(), word.rd(), word.rs1()) {
        _ if word.0 == UNIMP => "unimp".to_string(),
        (2, _, 0) => format!("csrr {},{csr}", word.rd_name()),
        (_, 0, _) => format!("csr{operation}{immediate} {csr},{source}"),
        _ => format!(
            "csrr{operation}{immediate} {},{csr},{source}",
            word.rd_name()
        ),
    }
}

/// Zimop: MOP.R.n is 1n00nn0111nn and MOP.RR.n is 1n00nn1 from bit 31 down. Zicfiss gives a few of
/// their words a meaning, and later releases of binutils print those by that meaning.
fn may_be_operation(word: Word) -> Option<String> {
    if word.bits(31, 31) != 1 || word.bits(29, 28) != 0 {
        return None;
    }
    let (high, middle) = (word.bits(30, 30), word.bits(27, 26));
    let (rd, rs1, rs2) = (word.rd_name(), word.rs1_name(), word.rs2_name());
    if let Some(text) = shadow_stack(word) {
        Some(text)
    } else if word.bits(25, 25) == 1 {
        Some(format!("mop.rr.{} {rd},{rs1},{rs2}", high << 2 | middle))
    } else if word.bits(25, 22) == 0b0111 {
        Some(format!(
            "mop.r.{} {rd},{rs1}",
            high << 4 | middle << 2 | word.bits(21, 20)
        ))
    } else {
        None
    }
}

/// The words of Zimop that are Zicfiss's: push and pop-check of x1 and x5, and the read of ssp into
/// any register but x0.
fn shadow_stack(word: Word) -> Option<String> {
    match word.0 {
        0xce10_4073 | 0xce50_4073 => Some(format!("sspush {}", word.rs2_name())),
        0xcdc0_c073 | 0xcdc2_c073 => Some(format!("sspopchk {}", word.rs1_name())),
        other if other & 0xffff_f07f == 0xcdc0_4073 && word.rd() != 0 => {
            Some(format!("ssrdp {}", word.rd_name()))
        }
        _ => None,
    }
}

/// The one atomic instruction of the hart: opcode AMO, funct5 01001, a word or a doubleword wide.
pub fn shadow_swap(word: Word) -> Option<String> {
    let width = match (word.bits(31, 27), word.funct3()) {
        (0b01001, 2) => "w",
        (0b01001, 3) => "d",
        _ => return None,
    };
    let order = ["", ".rl", ".aq", ".aqrl"][word.bits(26, 25) as usize];
    Some(format!(
        "ssamoswap.{width}{order} {},{},({})",
        word.rd_name(),
        word.rs2_name(),
        word.rs1_name()
    ))
}
