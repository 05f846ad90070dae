//! Carrying out one instruction: the base instructions here, the others in the file of their subject.
//!
//! An instruction that traps has changed nothing; delivering the trap is the caller's part.

use crate::access::{Access, Kind};
use crate::alu::{compute, compute_word, holds};
use crate::csr;
use crate::decode::{decode, Instruction};
use crate::fields::{Immediate, Sources};
use crate::hart::Hart;
use crate::memory::{read_extended, write, Extension, Width};
use crate::pads;
use crate::shadow;
use crate::translate::translate;
use crate::trap::{mret, sret, Trap, INSTRUCTION_MISALIGNED};

/// Carries out `word` at pc. Jumps and returns set pc themselves; after all else pc moves on by 4.
pub fn execute(h: &mut Hart, mem: &mut [u8], map: &[u64], word: u32) -> Result<(), Trap> {
    match decode(word) {
        Instruction::Illegal => return Err(Trap::illegal(word)),
        Instruction::Lui(o) => h.set(o.rd, o.immediate),
        Instruction::Auipc(o) => h.set(o.rd, h.pc.wrapping_add(o.immediate)),
        Instruction::Jal(o) => return jump(h, o.rd, h.pc.wrapping_add(o.immediate)),
        Instruction::Jalr(o) => return jalr(h, o),
        Instruction::Branch(comparison, o) => {
            if holds(comparison, h.get(o.rs1), h.get(o.rs2)) {
                return jump(h, 0, h.pc.wrapping_add(o.immediate));
            }
        }
        Instruction::Load(width, extension, o) => load(h, mem, map, width, extension, o)?,
        Instruction::Store(width, o) => store(h, mem, map, width, o)?,
        Instruction::OpImm(op, o) => h.set(o.rd, compute(op, h.get(o.rs1), o.immediate)),
        Instruction::OpImm32(op, o) => h.set(o.rd, compute_word(op, h.get(o.rs1), o.immediate)),
        Instruction::Op(op, o) => h.set(o.rd, compute(op, h.get(o.rs1), h.get(o.rs2))),
        Instruction::Op32(op, o) => h.set(o.rd, compute_word(op, h.get(o.rs1), h.get(o.rs2))),
        Instruction::Fence => {}
        Instruction::Ecall => return Err(Trap::environment_call(h.mode)),
        Instruction::Ebreak => return Err(Trap::breakpoint(h.pc)),
        Instruction::Sret => return sret(h, word),
        Instruction::Mret => return mret(h, word),
        Instruction::Csr(operation, o) => csr::access(h, operation, o, word)?,
        Instruction::ReadSsp { rd } => shadow::read_ssp(h, rd),
        Instruction::Push { link } => shadow::push(h, mem, map, link)?,
        Instruction::PopCheck { link } => shadow::pop_check(h, mem, map, link)?,
        Instruction::Swap(width, o) => shadow::swap(h, mem, map, width, o, word)?,
        Instruction::MopR { rd } | Instruction::MopRr { rd } => h.set(rd, 0),
    }
    h.pc = h.next_pc();
    Ok(())
}

/// Goes to `target` and leaves the return address in `rd`; from a misaligned target neither.
fn jump(h: &mut Hart, rd: u8, target: u64) -> Result<(), Trap> {
    if target % 4 != 0 {
        return Err(Trap {
            cause: INSTRUCTION_MISALIGNED,
            tval: target,
        });
    }
    h.set(rd, h.next_pc());
    h.pc = target;
    Ok(())
}

/// The target's lowest bit is cleared before it is judged. ELP changes only if the jump is made.
fn jalr(h: &mut Hart, operands: Immediate) -> Result<(), Trap> {
    let sum = h.get(operands.rs1).wrapping_add(operands.immediate);
    jump(h, operands.rd, sum & !1)?;
    pads::after_jalr(h, operands.rs1);
    Ok(())
}

fn load(
    h: &mut Hart,
    mem: &[u8],
    map: &[u64],
    width: Width,
    extension: Extension,
    operands: Immediate,
) -> Result<(), Trap> {
    let address = h.get(operands.rs1).wrapping_add(operands.immediate);
    let access = Access::new(Kind::Load, address, width);
    let at = translate(h, map, mem.len(), access)?;
    h.set(operands.rd, read_extended(mem, at, width, extension));
    Ok(())
}

fn store(
    h: &Hart,
    mem: &mut [u8],
    map: &[u64],
    width: Width,
    operands: Sources,
) -> Result<(), Trap> {
    let address = h.get(operands.rs1).wrapping_add(operands.immediate);
    let access = Access::new(Kind::Store, address, width);
    let at = translate(h, map, mem.len(), access)?;
    write(mem, at, width, h.get(operands.rs2));
    Ok(())
}
