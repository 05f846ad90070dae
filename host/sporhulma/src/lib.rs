//! The proved simulator, safely: the calls of include/sporhulma.h over slices that Rust has checked.
//!
//! This is the only crate of `host/` with `unsafe`: a reference and a slice give what the header asks of its pointers.

/// Indices into a hart's words `rest`.
pub mod word {
    pub const PC: usize = 0;
    pub const MODE: usize = 1;
    pub const ELP: usize = 2;
    pub const SSP: usize = 3;
    pub const STVEC: usize = 4;
    pub const SENVCFG: usize = 5;
    pub const SSCRATCH: usize = 6;
    pub const SEPC: usize = 7;
    pub const SCAUSE: usize = 8;
    pub const STVAL: usize = 9;
    pub const SATP: usize = 10;
    pub const MSTATUS: usize = 11;
    pub const MEDELEG: usize = 12;
    pub const MTVEC: usize = 13;
    pub const MENVCFG: usize = 14;
    pub const MSCRATCH: usize = 15;
    pub const MEPC: usize = 16;
    pub const MCAUSE: usize = 17;
    pub const MTVAL: usize = 18;
    pub const MSECCFG: usize = 19;
}

/// The names of the words `rest`, in order.
pub const REST: [&str; 20] = [
    "pc", "mode", "elp", "ssp", "stvec", "senvcfg", "sscratch", "sepc", "scause", "stval", "satp",
    "mstatus", "medeleg", "mtvec", "menvcfg", "mscratch", "mepc", "mcause", "mtval", "mseccfg",
];

/// Indices into an instruction's eight numbers; include/sporhulma.h says what each family has there.
pub mod number {
    pub const FAMILY: usize = 0;
    pub const OPERATION: usize = 1;
    pub const RD: usize = 2;
    pub const RS1: usize = 3;
    pub const RS2: usize = 4;
    pub const IMMEDIATE: usize = 5;
    pub const FIRST: usize = 6;
    pub const SECOND: usize = 7;
}

/// The families of instructions, as `family` numbers them.
pub mod family {
    pub const ILLEGAL: u64 = 0;
    pub const LUI: u64 = 1;
    pub const AUIPC: u64 = 2;
    pub const JAL: u64 = 3;
    pub const JALR: u64 = 4;
    pub const BRANCH: u64 = 5;
    pub const LOAD: u64 = 6;
    pub const STORE: u64 = 7;
    pub const OP_IMM: u64 = 8;
    pub const OP_IMM_32: u64 = 9;
    pub const OP: u64 = 10;
    pub const OP_32: u64 = 11;
    pub const FENCE: u64 = 12;
    pub const ECALL: u64 = 13;
    pub const EBREAK: u64 = 14;
    pub const SRET: u64 = 15;
    pub const MRET: u64 = 16;
    pub const CSR: u64 = 17;
    pub const READ_SSP: u64 = 18;
    pub const PUSH: u64 = 19;
    pub const POP: u64 = 20;
    pub const SWAP: u64 = 21;
    pub const MOP_R: u64 = 22;
    pub const MOP_RR: u64 = 23;
}

/// The names of the families, in order.
pub const FAMILIES: [&str; 24] = [
    "illegal",
    "LUI",
    "AUIPC",
    "JAL",
    "JALR",
    "branch",
    "load",
    "store",
    "OP-IMM",
    "OP-IMM-32",
    "OP",
    "OP-32",
    "FENCE",
    "ECALL",
    "EBREAK",
    "SRET",
    "MRET",
    "CSR",
    "SSRDP",
    "push",
    "pop-check",
    "swap",
    "MOP.R",
    "MOP.RR",
];

/// The physical address of memory's first byte.
pub const BASE: u64 = 0x8000_0000;

/// mstatus with nothing set: UXL and SXL read 2.
pub const MSTATUS_CLEAR: u64 = 0xA_0000_0000;

/// The largest budget that a run takes.
pub const MOST_STEPS: u64 = 1_000_000;

/// A hart, as the words that cross the boundary.
#[derive(Clone, Copy, PartialEq, Eq, Debug)]
pub struct Hart {
    pub x: [u64; 32],
    pub rest: [u64; 20],
}

impl Hart {
    /// A hart that no call refuses: in M at memory's first byte, and nothing set.
    pub fn fresh() -> Hart {
        let mut rest = [0; 20];
        rest[word::PC] = BASE;
        rest[word::MODE] = 3;
        rest[word::MSTATUS] = MSTATUS_CLEAR;
        Hart { x: [0; 32], rest }
    }
}

/// What a call answers. `refusal` is 0 where the call was taken; else nothing was changed, and the other fields are 0.
#[derive(Clone, Copy, PartialEq, Eq, Debug)]
pub struct Answer {
    pub refusal: u64,
    /// Steps taken, the trapping one included.
    pub count: u64,
    pub trapped: bool,
    /// The cause of the trap, and 0 where there was none.
    pub cause: u64,
}

// Arrays go by pointer, slices as a pointer and a length.
#[rustfmt::skip]
extern "C" {
    fn sporhulma_step(x: *mut u64, rest: *mut u64, mem: *mut u8, mem_len: usize, map: *const u64, map_len: usize, answer: *mut u64) -> u64;
    fn sporhulma_step_word(x: *mut u64, rest: *mut u64, mem: *mut u8, mem_len: usize, map: *const u64, map_len: usize, word: u32, answer: *mut u64) -> u64;
    fn sporhulma_run(x: *mut u64, rest: *mut u64, mem: *mut u8, mem_len: usize, map: *const u64, map_len: usize, budget: u64, answer: *mut u64) -> u64;
    fn sporhulma_load_hex(mem: *mut u8, mem_len: usize, text: *const u8, text_len: usize, answer: *mut u64) -> u64;
    fn sporhulma_family(word: u32) -> u64;
    fn sporhulma_read(word: u32, instruction: *mut u64) -> u64;
    fn sporhulma_write(instruction: *const u64, word: *mut u32) -> u64;
}

/// Which of the three calls, with its own argument.
#[derive(Clone, Copy, PartialEq, Eq, Debug)]
pub enum Call {
    /// One step, which fetches at pc.
    Step,
    /// One step with a given word, as if it had been fetched at pc.
    StepWord(u32),
    /// Steps up to and including the first that traps, or until the budget, at most [`MOST_STEPS`], is spent.
    Run(u64),
}

/// Makes one of the three calls.
#[inline]
pub fn call(call: Call, h: &mut Hart, mem: &mut [u8], map: &[u64]) -> Answer {
    let mut answer = [0; 3];
    let (x, rest, told) = (h.x.as_mut_ptr(), h.rest.as_mut_ptr(), answer.as_mut_ptr());
    let (mem, mem_len) = (mem.as_mut_ptr(), mem.len());
    let (map, map_len) = (map.as_ptr(), map.len());
    // SAFETY: each pointer is a reference's or a slice's own, with its length; they do not overlap, since each is borrowed apart.
    let refusal = unsafe {
        match call {
            Call::Step => sporhulma_step(x, rest, mem, mem_len, map, map_len, told),
            Call::StepWord(word) => {
                sporhulma_step_word(x, rest, mem, mem_len, map, map_len, word, told)
            }
            Call::Run(budget) => sporhulma_run(x, rest, mem, mem_len, map, map_len, budget, told),
        }
    };
    Answer {
        refusal,
        count: answer[0],
        trapped: answer[1] != 0,
        cause: answer[2],
    }
}

/// [`Call::Step`].
pub fn step(h: &mut Hart, mem: &mut [u8], map: &[u64]) -> Answer {
    call(Call::Step, h, mem, map)
}

/// [`Call::StepWord`].
pub fn step_word(h: &mut Hart, mem: &mut [u8], map: &[u64], word: u32) -> Answer {
    call(Call::StepWord(word), h, mem, map)
}

/// [`Call::Run`].
pub fn run(h: &mut Hart, mem: &mut [u8], map: &[u64], budget: u64) -> Answer {
    call(Call::Run(budget), h, mem, map)
}

/// What a load answers. Where `refusal` is not 0, nothing was changed and there is no start address.
#[derive(Clone, Copy, PartialEq, Eq, Debug)]
pub struct Loaded {
    pub refusal: u64,
    /// The first bad line, from 1, of refusal 6; else 0.
    pub line: u64,
    /// The last type 05's address.
    pub start: Option<u64>,
}

/// Loads a text of Intel HEX into memory, whose first byte is [`BASE`].
pub fn load_hex(memory: &mut [u8], text: &[u8]) -> Loaded {
    let mut answer = [0; 3];
    // SAFETY: as in `call`.
    let refusal = unsafe {
        sporhulma_load_hex(
            memory.as_mut_ptr(),
            memory.len(),
            text.as_ptr(),
            text.len(),
            answer.as_mut_ptr(),
        )
    };
    Loaded {
        refusal,
        line: answer[0],
        start: (answer[1] != 0).then_some(answer[2]),
    }
}

/// The decoder's verdict: [`family::ILLEGAL`] for a word that is no instruction of the hart, else its family.
pub fn family(word: u32) -> u64 {
    // SAFETY: it takes a number and gives one.
    unsafe { sporhulma_family(word) }
}

/// Reads a word: 0 and its instruction's numbers, or refusal 5 and eight zeros.
pub fn read(word: u32, instruction: &mut [u64; 8]) -> u64 {
    // SAFETY: as in `call`.
    unsafe { sporhulma_read(word, instruction.as_mut_ptr()) }
}

/// Writes an instruction: 0 and its word; or refusal 5 where no word reads as these numbers, and the word as it was.
pub fn write(instruction: &[u64; 8], word: &mut u32) -> u64 {
    // SAFETY: as in `call`.
    unsafe { sporhulma_write(instruction.as_ptr(), word) }
}
