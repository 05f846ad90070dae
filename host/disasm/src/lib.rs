//! GNU-style text of an instruction word: what `objdump -d` prints for it, for every instruction
//! the hart has (docs/HART.md, chapter 3).
//!
//! The mnemonics, aliases (`li`, `mv`, `ret`, `beqz`, `csrr` ..) and register names are GNU's; a
//! jump or branch target is a hexadecimal address. Three things differ from the objdump of Debian
//! 12 (binutils 2.40), each for a reason:
//! - One space stands between mnemonic and operands, where objdump has a tab: a trace sets its own
//!   columns.
//! - An instruction with an immediate keeps the manual's name (`addi`, `slli`, `csrwi`). Release
//!   2.40 prints `add`, `sll` and `csrw` there, which in the manual are the names of other
//!   instructions.
//! - Zimop, Zicfiss and Zicfilp are unknown to 2.40; the spelling is that of release 2.44 (`mop.r.0
//!   a0,a1`, `sspush ra`, `ssamoswap.d.aq a0,a1,(a2)`, `lpad 0x12345`). But 0xCDC04073, which 2.44
//!   calls `ssrdp zero`, is `mop.r.28 zero,zero` here, since it reads nothing (docs/HART.md, 3.18); and
//!   `ssamoswap.w`, which 2.44 knows for RV32 only, is spelled as `ssamoswap.d` is.
//!
//! `host/asm` reads each text back to its word. So does GNU as, with these exceptions: what 2.40 does not know; a fence
//! with an empty set, which objdump calls `unknown` and so do we; and a jump or branch target,
//! which as takes as a distance (`.+8`) only. `tools/outside` checks all of this with 2.40; the
//! spelling of 2.44 was compared once, by hand, over the same words.

mod base;
mod fields;
mod names;
mod system;

pub use fields::Word;
pub use names::{csr_address, csr_name, csr_names, register, register_number};

/// The text of `word`, standing at `pc` (only jumps and branches depend on `pc`).
///
/// A word that is not an instruction of the hart, and so traps as illegal, is `.word 0x` and eight
/// lower-case digits: the word as a directive that every assembler takes and that gives it back.
/// (objdump's own `.4byte` says the same.) Words that GNU knows and the hart does not, such as
/// `andn` or `wfi`, are also written so: the text tells what this hart does. A CSR instruction is
/// one whatever its CSR; a CSR that the hart does not have is given by number.
pub fn text(word: u32, pc: u64) -> String {
    instruction(Word(word), pc).unwrap_or_else(|| format!(".word 0x{word:08x}"))
}

/// The text of an instruction of the hart, by major opcode; none for any other word.
fn instruction(word: Word, pc: u64) -> Option<String> {
    match word.opcode() {
        0x03 => base::load(word),
        0x0f => base::fence(word),
        0x13 => base::op_imm(word),
        0x17 => Some(base::auipc(word)),
        0x1b => base::op_imm_32(word),
        0x23 => base::store(word),
        0x2f => system::shadow_swap(word),
        0x33 => base::op(word),
        0x37 => Some(base::lui(word)),
        0x3b => base::op_32(word),
        0x63 => base::branch(word, pc),
        0x67 => base::jalr(word),
        0x6f => Some(base::jal(word, pc)),
        0x73 => system::system(word),
        _ => None,
    }
}
