//! RV64I but for SYSTEM, with GNU's aliases; the instructions of M and Zbb, which stand in the same
//! opcodes and have no alias; and `lpad`, which is AUIPC with rd x0.
//!
//! Where two aliases fit one word (`blt zero,zero`), the one taken is the one that stands first in
//! binutils' table.

use crate::fields::Word;

pub fn lui(word: Word) -> String {
    format!("lui {},{:#x}", word.rd_name(), word.imm_u())
}

pub fn auipc(word: Word) -> String {
    match word.rd() {
        0 => format!("lpad {:#x}", word.imm_u()),
        _ => format!("auipc {},{:#x}", word.rd_name(), word.imm_u()),
    }
}

/// A jump or branch target, `offset` away from `pc`.
fn target(pc: u64, offset: i32) -> String {
    format!("{:#x}", pc.wrapping_add(offset as u64))
}

pub fn jal(word: Word, pc: u64) -> String {
    let target = target(pc, word.imm_j());
    match word.rd() {
        0 => format!("j {target}"),
        1 => format!("jal {target}"),
        _ => format!("jal {},{target}", word.rd_name()),
    }
}

pub fn jalr(word: Word) -> Option<String> {
    if word.funct3() != 0 {
        return None;
    }
    let base = word.rs1_name();
    let operand = match word.imm_i() {
        0 => base.to_string(),
        offset => format!("{offset}({base})"),
    };
    Some(match (word.rd(), operand.as_str()) {
        (0, "ra") => "ret".to_string(),
        (0, _) => format!("jr {operand}"),
        (1, _) => format!("jalr {operand}"),
        _ => format!("jalr {},{operand}", word.rd_name()),
    })
}

pub fn branch(word: Word, pc: u64) -> Option<String> {
    let (rs1, rs2) = (word.rs1_name(), word.rs2_name());
    let target = target(pc, word.imm_b());
    let (name, operand) = match (word.funct3(), word.rs1(), word.rs2()) {
        (0, _, 0) => ("beqz", rs1),
        (1, _, 0) => ("bnez", rs1),
        (4, _, 0) => ("bltz", rs1),
        (4, 0, _) => ("bgtz", rs2),
        (5, 0, _) => ("blez", rs2),
        (5, _, 0) => ("bgez", rs1),
        (funct3, _, _) => {
            let name = ["beq", "bne", "", "", "blt", "bge", "bltu", "bgeu"][funct3];
            return known(name).map(|name| format!("{name} {rs1},{rs2},{target}"));
        }
    };
    Some(format!("{name} {operand},{target}"))
}

/// A name from a table by funct3, where the empty one means that no instruction has this funct3.
fn known(name: &'static str) -> Option<&'static str> {
    (!name.is_empty()).then_some(name)
}

pub fn load(word: Word) -> Option<String> {
    let name = known(["lb", "lh", "lw", "ld", "lbu", "lhu", "lwu", ""][word.funct3()])?;
    Some(format!(
        "{name} {},{}({})",
        word.rd_name(),
        word.imm_i(),
        word.rs1_name()
    ))
}

pub fn store(word: Word) -> Option<String> {
    let name = known(["sb", "sh", "sw", "sd", "", "", "", ""][word.funct3()])?;
    Some(format!(
        "{name} {},{}({})",
        word.rs2_name(),
        word.imm_s(),
        word.rs1_name()
    ))
}

pub fn op_imm(word: Word) -> Option<String> {
    let (rd, rs1, imm) = (word.rd_name(), word.rs1_name(), word.imm_i());
    Some(match (word.funct3(), word.rs1(), imm) {
        (0, 0, 0) if word.rd() == 0 => "nop".to_string(),
        (0, 0, _) => format!("li {rd},{imm}"),
        (0, _, 0) => format!("mv {rd},{rs1}"),
        (1, _, 0x600..=0x602) => count(word, ""),
        (1, _, _) | (5, _, _) => return shift_imm(word, 6, ""),
        (3, _, 1) => format!("seqz {rd},{rs1}"),
        (4, _, -1) => format!("not {rd},{rs1}"),
        (7, _, 255) => format!("zext.b {rd},{rs1}"),
        (funct3, _, _) => {
            let name = ["addi", "", "slti", "sltiu", "xori", "", "ori", "andi"][funct3];
            format!("{name} {rd},{rs1},{imm}")
        }
    })
}

pub fn op_imm_32(word: Word) -> Option<String> {
    let (rd, rs1, imm) = (word.rd_name(), word.rs1_name(), word.imm_i());
    match (word.funct3(), imm) {
        (0, 0) => Some(format!("sext.w {rd},{rs1}")),
        (0, _) => Some(format!("addiw {rd},{rs1},{imm}")),
        (1, 0x600..=0x602) => Some(count(word, "w")),
        (1, _) | (5, _) => shift_imm(word, 5, "w"),
        _ => None,
    }
}

/// A count of Zbb, of which the last bits of the immediate say which: 0x600, 0x601 or 0x602.
fn count(word: Word, suffix: &str) -> String {
    let name = ["clz", "ctz", "cpop"][word.bits(21, 20) as usize];
    format!("{name}{suffix} {},{}", word.rd_name(), word.rs1_name())
}

/// A shift by a constant amount of `bits` bits (funct3 1 or 5): the bits above it say which shift,
/// and must be as the manual has them.
fn shift_imm(word: Word, bits: u32, suffix: &str) -> Option<String> {
    let name = match (word.funct3(), word.0 >> (20 + bits) << bits) {
        (1, 0) => "slli",
        (5, 0) => "srli",
        (5, 0x400) => "srai",
        _ => return None,
    };
    let amount = word.bits(19 + bits, 20);
    Some(format!(
        "{name}{suffix} {},{},{amount:#x}",
        word.rd_name(),
        word.rs1_name()
    ))
}

pub fn op(word: Word) -> Option<String> {
    let (rd, rs1, rs2) = (word.rd_name(), word.rs1_name(), word.rs2_name());
    let (name, operand) = match (word.funct7(), word.funct3(), word.rs1(), word.rs2()) {
        (0x20, 0, 0, _) => ("neg", rs2),
        (0, 2, _, 0) => ("sltz", rs1),
        (0, 2, 0, _) => ("sgtz", rs2),
        (0, 3, 0, _) => ("snez", rs2),
        (funct7, funct3, _, _) => {
            let name = match funct7 {
                0 => ["add", "sll", "slt", "sltu", "xor", "srl", "or", "and"][funct3],
                1 => [
                    "mul", "mulh", "mulhsu", "mulhu", "div", "divu", "rem", "remu",
                ][funct3],
                5 => ["", "", "", "", "min", "minu", "max", "maxu"][funct3],
                0x20 => ["sub", "", "", "", "", "sra", "", ""][funct3],
                _ => "",
            };
            return known(name).map(|name| format!("{name} {rd},{rs1},{rs2}"));
        }
    };
    Some(format!("{name} {rd},{operand}"))
}

pub fn op_32(word: Word) -> Option<String> {
    let (rd, rs1, rs2) = (word.rd_name(), word.rs1_name(), word.rs2_name());
    let name = match (word.funct7(), word.funct3()) {
        (0x20, 0) if word.rs1() == 0 => return Some(format!("negw {rd},{rs2}")),
        (0, 0) => "addw",
        (0x20, 0) => "subw",
        (0, 1) => "sllw",
        (0, 5) => "srlw",
        (0x20, 5) => "sraw",
        (1, 0) => "mulw",
        (1, 4) => "divw",
        (1, 5) => "divuw",
        (1, 6) => "remw",
        (1, 7) => "remuw",
        _ => return None,
    };
    Some(format!("{name} {rd},{rs1},{rs2}"))
}

/// FENCE. The hart takes it with any fields; GNU has names only for those in which fm, rd and rs1
/// are 0, and for `fence.tso`. The others are written with as's directive for a word by its fields.
pub fn fence(word: Word) -> Option<String> {
    if word.funct3() != 0 {
        return None;
    }
    let (fm, pred, succ) = (word.bits(31, 28), word.bits(27, 24), word.bits(23, 20));
    Some(match (fm, word.rd(), word.rs1()) {
        (0, 0, 0) if pred == 15 && succ == 15 => "fence".to_string(),
        (0, 0, 0) => format!("fence {},{}", fence_set(pred), fence_set(succ)),
        (8, 0, 0) if pred == 3 && succ == 3 => "fence.tso".to_string(),
        _ => format!(
            ".insn i MISC_MEM,0,{},{},{} # fence",
            word.rd_name(),
            word.rs1_name(),
            word.imm_i()
        ),
    })
}

/// A predecessor or successor set: the letters of its bits, from input to writes. objdump calls the
/// empty set `unknown`.
fn fence_set(set: u32) -> String {
    match set {
        0 => "unknown".to_string(),
        _ => [(8, 'i'), (4, 'o'), (2, 'r'), (1, 'w')]
            .iter()
            .filter(|(bit, _)| set & bit != 0)
            .map(|(_, letter)| letter)
            .collect(),
    }
}
