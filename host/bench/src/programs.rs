//! The programs of the table, each with its hart, memory and page map. None of them ends: the benchmark decides how many
//! instructions it takes.

use crate::encode::*;
use crate::{controller, filter, straight};
use formats::csr::field::{MLPE, MPP, SSE, SV39};
use formats::csr::{MEPC, MSCRATCH, SSCRATCH};
use formats::leaf::{self, A, D, FRAME_SHIFT, U, V};
pub use formats::leaf::{R, W, X};
use sporhulma::{word, Hart, BASE, MOST_STEPS};

pub const PAGE: usize = leaf::PAGE as usize;

pub struct Program {
    pub name: &'static str,
    pub hart: Hart,
    pub memory: Vec<u8>,
    pub map: Vec<u64>,
    /// Steps that one call takes at most; the next call goes on.
    pub most: u64,
}

/// In M at memory's first byte, with the code there and one page of data behind its last page (its address in x2).
pub fn bare(name: &'static str, code: &[u32]) -> Program {
    let data = (4 * code.len()).next_multiple_of(PAGE);
    let mut hart = Hart::fresh();
    hart.x[2] = BASE + data as u64;
    let mut memory = vec![0; data + PAGE];
    place(&mut memory, 0, code);
    let map = Vec::new();
    Program {
        name,
        hart,
        memory,
        map,
        most: MOST_STEPS,
    }
}

pub fn place(memory: &mut [u8], at: usize, code: &[u32]) {
    for (k, word) in code.iter().enumerate() {
        memory[at + 4 * k..at + 4 * k + 4].copy_from_slice(&word.to_le_bytes());
    }
}

/// An entry of the map: memory's page `frame`, for U, with these rights.
pub fn entry(page: u64, frame: u64, may: u64) -> [u64; 2] {
    [
        page,
        ((BASE / leaf::PAGE + frame) << FRAME_SHIFT) | V | A | D | U | may,
    ]
}

/// In U under Sv39, at the first byte of a page.
pub fn start_in_user(hart: &mut Hart, page: u64) {
    hart.rest[word::MODE] = 0;
    hart.rest[word::SATP] = SV39;
    hart.rest[word::PC] = page * PAGE as u64;
}

pub fn registers() -> Program {
    bare(
        "register loop",
        &[
            addi(5, 5, 1),
            add(6, 6, 5),
            xor(7, 7, 6),
            slli(8, 7, 3),
            srli(9, 8, 5),
            sltu(10, 9, 6),
            addw(11, 11, 10),
            xori(12, 11, 0x55),
            addi(13, 13, -1),
            bne(5, 0, -36),
        ],
    )
}

pub fn loads_and_stores() -> Program {
    bare(
        "load/store loop",
        &[
            load(3, 5, 2, 0),
            addi(5, 5, 1),
            store(3, 5, 2, 0),
            load(2, 6, 2, 8),
            add(6, 6, 5),
            store(2, 6, 2, 8),
            load(4, 7, 2, 16),
            xori(7, 7, 1),
            store(0, 7, 2, 16),
            bne(5, 0, -36),
        ],
    )
}

/// A checksum over 64 KiB of data, by loads of eight bytes: eight of them in a turn of the loop, and after the last one from the start again.
pub fn checksum() -> Program {
    const DATA: usize = 64 * 1024;
    let mut code = Vec::new();
    for k in 0..8 {
        code.push(load(3, 6, 5, 8 * k));
        code.push(add(7, 7, 6));
    }
    code.push(addi(5, 5, 64));
    code.push(bne(5, 8, -4 * code.len() as i32));
    code.push(addi(5, 2, 0));
    code.push(jal(0, -4 * code.len() as i32));
    let mut program = bare("eight-byte loads, a checksum", &code);
    let data = program.hart.x[2];
    program.hart.x[5] = data;
    program.hart.x[8] = data + DATA as u64;
    program.memory.resize(PAGE + DATA, 0x5A);
    program
}

/// A call into a function that pushes its return address on both stacks and calls another one that does so too.
fn calls_code() -> Vec<u32> {
    vec![
        // the loop
        jal(1, 12),
        addi(5, 5, 1),
        jal(0, -8),
        // outer
        SSPUSH_X1,
        addi(2, 2, -16),
        store(3, 1, 2, 8),
        jal(1, 24),
        load(3, 1, 2, 8),
        addi(2, 2, 16),
        SSPOPCHK_X1,
        jalr(0, 1, 0),
        addi(0, 0, 0),
        // inner, which keeps its own return address too
        SSPUSH_X1,
        addi(6, 6, 1),
        SSPOPCHK_X1,
        jalr(0, 1, 0),
    ]
}

/// In U under Sv39 with both shadow enables. Of the map's entries four are used, spread over it: code, data, stack and shadow stack.
pub fn calls(name: &'static str, entries: usize) -> Program {
    let used = [0, entries / 3, 2 * entries / 3, entries - 1];
    let page = |k: usize| 0x10 + used[k] as u64;
    let rights = [R | X, R | W, R | W, W];
    let map = (0..entries)
        .flat_map(|n| {
            let own = used.iter().position(|&u| u == n).unwrap_or(1);
            entry(0x10 + n as u64, own as u64, rights[own])
        })
        .collect();
    let mut hart = Hart::fresh();
    start_in_user(&mut hart, page(0));
    hart.rest[word::MENVCFG] = SSE;
    hart.rest[word::SENVCFG] = SSE;
    hart.x[2] = (page(2) + 1) * PAGE as u64;
    hart.rest[word::SSP] = (page(3) + 1) * PAGE as u64;
    let mut memory = vec![0; 4 * PAGE];
    place(&mut memory, 0, &calls_code());
    Program {
        name,
        hart,
        memory,
        map,
        most: MOST_STEPS,
    }
}

/// CSR reads and writes in M, and an environment call whose handler returns behind it. A run ends at each trap.
pub fn csrs_and_traps() -> Program {
    let mut program = bare(
        "CSR and trap loop",
        &[
            zicsr(1, 5, MSCRATCH, 6),
            zicsr(2, 6, SSCRATCH, 0),
            addi(6, 6, 1),
            zicsr(1, 0, SSCRATCH, 6),
            zicsr(3, 7, MSCRATCH, 6),
            ECALL,
            addi(8, 8, 1),
            jal(0, -28),
        ],
    );
    let handler = 0x100;
    let code = [
        zicsr(2, 9, MEPC, 0),
        addi(9, 9, 4),
        zicsr(1, 0, MEPC, 9),
        MRET,
    ];
    place(&mut program.memory, handler, &code);
    program.hart.rest[word::MTVEC] = BASE + handler as u64;
    // MPP is M, so that MRET comes back to M
    program.hart.rest[word::MSTATUS] |= MPP;
    program
}

/// In M with landing pads on: a jump through a register to a pad in every 92 steps. Neither of the two is carried out on the fast path.
pub fn pads() -> Program {
    let mut code = vec![LPAD];
    code.extend((0..90).map(|k| addi(8 + k % 8, 8 + k % 8, 1)));
    code.push(jalr(0, 6, 0));
    let mut program = bare("jumps to landing pads, one in 92", &code);
    program.hart.x[6] = BASE;
    program.hart.rest[word::MSECCFG] = MLPE;
    program
}

pub fn all() -> Vec<Program> {
    vec![
        registers(),
        loads_and_stores(),
        calls("calls, shadow stack, Sv39, 4 entries", 4),
        calls("calls, shadow stack, Sv39, 64 entries", 64),
        csrs_and_traps(),
        filter::in_machine(),
        filter::in_user(),
        checksum(),
        controller::in_machine(),
        controller::in_user(),
        straight::program(),
        filter::in_short_runs(),
        pads(),
    ]
}
