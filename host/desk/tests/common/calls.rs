//! Programs that make calls of the environment, and what a call left.

use super::json::{Reader, Value};
use super::*;

pub const SLLI: u32 = 0x01f0_1013; // slli zero,zero,0x1f
pub const SRAI: u32 = 0x4070_5013; // srai zero,zero,7
pub const MRET: u32 = 0x3020_0073;

/// Negative numbers of errors, as a call leaves them in a0.
pub const EBADF: u64 = 9u64.wrapping_neg();
pub const EFAULT: u64 = 14u64.wrapping_neg();
pub const ENOSYS: u64 = 38u64.wrapping_neg();

/// Pages of a user program whose data are two pages that lie apart in memory, with nothing behind them.
pub const APART: &str = "\
0x10000 -> 0x80000000 r-x u
0x20000 -> 0x80001000 rw u
0x21000 -> 0x80003000 rw u
0x30000 -> 0x80002000 shadow u
0x40000 -> 0x80000000 r u
";

/// A program of one page of code, and what its data hold from physical 0x80001000 on.
pub fn program(desk: &Desk, words: &[u32], data: &[u8]) {
    let mut image: Vec<u8> = words.iter().flat_map(|word| word.to_le_bytes()).collect();
    image.resize(4096, 0);
    image.extend(data);
    desk.file("p.bin", image);
    desk.file("apart.map", APART);
}

pub const RUN: &str = "run p.bin --memory 16K --map apart.map --mode U --pc 0x10000 --sv39";

/// One system call with these registers, up to the breakpoint behind it: what it wrote, and the object.
pub fn call(data: &[u8], input: &str, registers: &str) -> (Outcome, Value) {
    let name: String = registers
        .chars()
        .filter(char::is_ascii_alphanumeric)
        .collect();
    let desk = Desk::new(&format!("call-{name}-{}", input.len()));
    program(&desk, &[ECALL, EBREAK], data);
    let set: Vec<String> = registers
        .split(' ')
        .map(|pair| format!("--x {pair}"))
        .collect();
    let options = format!(
        "{RUN} --syscalls --expect ebreak --json --dump 0x80001000:4096 --dump 0x80003000:16 {}",
        set.join(" ")
    );
    let outcome = desk.run_with(&options, input);
    assert_eq!(outcome.status, 0, "{registers}: {}", outcome.err);
    let object = Reader::whole(&outcome.out);
    (outcome, object)
}

pub fn a0(object: &Value) -> u64 {
    object.at("registers").at("a0").hex()
}

pub fn dump(object: &Value, number: usize) -> &str {
    object.at("dump").list()[number].at("bytes").text()
}
