//! Runs: the count, the end at the first trap, and that a run is its steps.

mod common;
use common::*;

/// Counts x1 down from x1 and then calls.
const COUNTDOWN: [u32; 3] = [0xFFF0_8093, 0xFE00_9EE3, ECALL];

#[test]
fn a_run_counts_the_trapping_step() {
    let mut w = world(USER);
    w.place(0, &COUNTDOWN);
    w.h.x[1] = 5;
    assert_eq!(w.run(100), trapped(11, 8));
    assert_eq!((w.h.mepc, w.h.mode, w.h.x[1]), (START + 8, MACHINE, 0));
}

#[test]
fn a_run_ends_with_its_budget() {
    let mut w = world(USER);
    w.place(0, &COUNTDOWN);
    w.h.x[1] = 5;
    assert_eq!(w.run(10), quiet(10));
    assert_eq!((w.h.pc, w.h.mode), (START + 8, USER));
    assert_eq!(w.run(1), trapped(1, 8));
}

#[test]
fn a_run_ends_at_the_first_trap_even_if_the_handler_is_there() {
    let mut w = world(USER);
    w.h.mtvec = START + 0x40;
    w.place(0, &[ECALL]);
    w.place(0x40, &[NOP, NOP]);
    assert_eq!(w.run(100), trapped(1, 8));
    assert_eq!(w.h.pc, START + 0x40);
}

#[test]
fn a_fetch_fault_is_a_step() {
    let mut w = world(USER);
    w.h.pc = 0;
    assert_eq!(w.run(100), trapped(1, 1));
}

/// The word at pc, if it lies in memory; the program runs in Bare.
fn word_at_pc(w: &World) -> Option<u32> {
    let at = usize::try_from(w.h.pc.checked_sub(START)?).ok()?;
    let bytes = w.mem.get(at..)?.first_chunk()?;
    Some(u32::from_le_bytes(*bytes))
}

/// Random words as a program: a run leaves what its steps leave, and a fetched word acts as a given one.
#[test]
fn a_run_is_its_steps() {
    let mut numbers = Numbers(0x0123_4567);
    let opcodes = [
        0x03, 0x0F, 0x13, 0x17, 0x1B, 0x23, 0x33, 0x37, 0x3B, 0x63, 0x67, 0x6F, 0x73,
    ];
    for _ in 0..500 {
        let mut by_run = shadowed(numbers.next() % 2, V | R | W | X | U | A | D);
        by_run.h.satp = 0;
        by_run.h.x[2] = START;
        for at in 0..64 {
            let opcode = opcodes[numbers.next() as usize % opcodes.len()];
            let word = numbers.next() as u32 & !0x7F | opcode;
            by_run.place(4 * at, &[word]);
        }
        let mut by_step = by_run.clone();
        let mut by_word = by_run.clone();
        let answer = by_run.run(40);
        for count in 1..=answer.count {
            let last = by_step.step();
            let same = match word_at_pc(&by_word) {
                Some(word) => by_word.word(word),
                None => by_word.step(),
            };
            assert_eq!(same, last);
            assert_eq!(last.trapped, answer.trapped && count == answer.count);
        }
        assert_eq!(by_step, by_run);
        assert_eq!(by_word, by_run);
    }
}

/// A call with push and pop-check, and the same with its saved return address run over.
#[test]
fn a_protected_return() {
    let program = [
        jal(1, 8),
        ECALL,
        PUSH_X1,
        store(3, 2, 1, 0),
        NOP,
        load(3, 1, 2, 0),
        POP_X1,
        jalr(0, 1, 0),
    ];
    let mut w = shadowed(USER, V | W | U | A | D);
    w.map = vec![
        5,
        leaf(1, V | W | U | A | D),
        6,
        leaf(2, V | R | W | U | A | D),
    ];
    w.map.extend([8, leaf(0, V | X | U | A)]);
    w.place(0, &program);
    (w.h.pc, w.h.x[2]) = (0x8000, 0x6100);
    let mut good = w.clone();
    assert_eq!(good.run(100), trapped(8, 8));
    assert_eq!(good.h.ssp, 0x5800);
    w.place(0x10, &[store(3, 2, 2, 0)]);
    assert_eq!(w.run(100), trapped(6, 18));
    assert_eq!((w.h.mepc, w.h.mtval, w.h.ssp), (0x8018, 3, 0x57F8));
}
