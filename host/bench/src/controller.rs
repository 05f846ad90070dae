//! A real program: examples/c/controller.c as GCC 12 compiles it, again and again, with the numbers that it would print sorted and put into a
//! checksum each time (c/start.c, c/library.c). The words are kept (words.rs), so that no compiler is needed; they were made by
//!
//! ```sh
//! make -C host/bench/c    # riscv64-unknown-elf-gcc -march=rv64im -mabi=lp64 -mcmodel=medany -O2, and examples/c/shadow.py
//! ```
//!
//! They are the same in both rows: in M a shadow push and a pop-check are instructions that do nothing.

mod words;

use crate::programs::{entry, place, start_in_user, Program, PAGE, R, W, X};
use formats::csr::field::SSE;
use sporhulma::{word, Hart, BASE, MOST_STEPS};

/// Pages of memory, and entries of the map: more than the 16 that the desk lays out for examples/c/controller.c, with its heap and stacks,
/// and fewer than the 64 that there can be.
const ENTRIES: usize = 29;

/// The pages that are used, spread over them as c/program.ld has them, which has its data at page 16; the stacks are the benchmark's.
const CODE: usize = 0;
const LIBRARY: usize = 5;
const CONSTANTS: usize = 11;
const STACK: usize = 22;
const SHADOW: usize = 28;

fn rights(page: usize) -> u64 {
    match page {
        CODE | LIBRARY => R | X,
        CONSTANTS => R,
        SHADOW => W,
        _ => R | W,
    }
}

/// The address behind a page, where a stack begins; memory's first page is at `first`.
fn top(first: u64, page: usize) -> u64 {
    first + ((page + 1) * PAGE) as u64
}

fn program(name: &'static str, first: u64) -> Program {
    let mut hart = Hart::fresh();
    hart.x[2] = top(first, STACK);
    let mut memory = vec![0; ENTRIES * PAGE];
    place(&mut memory, CODE * PAGE, words::PROGRAM);
    place(&mut memory, LIBRARY * PAGE, words::LIBRARY);
    place(&mut memory, CONSTANTS * PAGE, words::CONSTANTS);
    Program {
        name,
        hart,
        memory,
        map: Vec::new(),
        most: MOST_STEPS,
    }
}

pub fn in_machine() -> Program {
    program("controller in C", BASE)
}

/// The same in U under Sv39 with both shadow enables.
pub fn in_user() -> Program {
    const FIRST: u64 = 0x10;
    let start = FIRST * PAGE as u64;
    let mut program = program("controller in C, Sv39, 29 entries", start);
    start_in_user(&mut program.hart, FIRST);
    program.hart.rest[word::MENVCFG] = SSE;
    program.hart.rest[word::SENVCFG] = SSE;
    program.hart.rest[word::SSP] = top(start, SHADOW);
    program.map = (0..ENTRIES)
        .flat_map(|n| entry(FIRST + n as u64, n as u64, rights(n)))
        .collect();
    program
}

#[cfg(test)]
mod tests {
    use super::*;

    /// The page of data (`kept` of c/start.c).
    const KEPT: usize = 16;

    fn saturated(n: i32) -> i32 {
        n.clamp(i16::MIN.into(), i16::MAX.into())
    }

    fn product(one: i32, other: i32) -> i32 {
        saturated((one * other) >> 15)
    }

    /// The numbers that examples/c/controller.c prints, sorted.
    fn numbers() -> Vec<i32> {
        let (mut sum, mut speed, mut numbers) = (0, 0, Vec::new());
        for step in 0..200 {
            let wanted = if step < 100 { 20_000 } else { -30_000 };
            let error = saturated(wanted - speed);
            sum = saturated(sum + product(2458, error));
            let torque = saturated(2 * product(24_576, error) + sum);
            speed = saturated(speed + (torque - speed) / 16);
            if step % 20 == 19 {
                numbers.extend([step + 1, wanted, torque, speed]);
            }
        }
        numbers.sort_unstable();
        numbers
    }

    /// CRC-32 bit by bit.
    fn checksum(sum: u32, bytes: &[u8]) -> u32 {
        let bit = |sum: u32| (sum >> 1) ^ if sum & 1 == 1 { 0xEDB8_8320 } else { 0 };
        let byte = |sum: u32, b: &u8| (0..8).fold(sum ^ u32::from(*b), |sum, _| bit(sum));
        !bytes.iter().fold(!sum, byte)
    }

    fn turns(p: &Program) -> u64 {
        let bytes = &p.memory[KEPT * PAGE..][..8];
        u64::from_le_bytes(bytes.try_into().expect("eight bytes"))
    }

    /// Each time it has sorted the numbers that the controller in plain numbers gives, and has their checksum. In U, and only there, it
    /// has pushed on the shadow stack.
    #[test]
    fn it_controls() {
        assert_eq!(checksum(0, b"123456789"), 0xCBF4_3926);
        let numbers: Vec<u8> = numbers().into_iter().flat_map(i32::to_le_bytes).collect();
        for mut p in [in_machine(), in_user()] {
            let mut sum = 0;
            for turn in 1..=5 {
                sum = checksum(sum, &numbers);
                while turns(&p) < turn {
                    // Few enough to stop before the next turn's first numbers.
                    let answer = sporhulma::run(&mut p.hart, &mut p.memory, &p.map, 100);
                    assert_eq!((answer.refusal, answer.trapped), (0, false), "{}", p.name);
                }
                let kept = &p.memory[KEPT * PAGE..];
                assert_eq!(kept[8..12], sum.to_le_bytes(), "{}", p.name);
                assert_eq!(kept[16..16 + numbers.len()], numbers, "{}", p.name);
            }
            let pushed = p.memory[SHADOW * PAGE..].iter().any(|&b| b != 0);
            assert_eq!(pushed, !p.map.is_empty(), "{}", p.name);
        }
    }
}
