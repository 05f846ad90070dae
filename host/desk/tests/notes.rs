//! Nothing silent: what is on and has no effect is noted, counted and, with `--strict`, an end that was not asked for.

mod common;

use common::json::Reader;
use common::*;

const MRET: u32 = 0x3020_0073;
const LPAD: u32 = 0x0000_0017; // lpad 0
const SW_A0_A1: u32 = 0x00a5_a023; // sw a0,0(a1)

/// The notes of a run, the same by a trace; and its status.
fn notes(test: &str, words: &[u32], options: &str) -> (i32, Vec<String>) {
    let desk = Desk::new(test);
    desk.image("p.bin", words);
    let outcome = desk.run(&format!("run p.bin {options} --json"));
    let listed = |out: &str| -> Vec<String> {
        let object = Reader::whole(out);
        object
            .at("notes")
            .texts()
            .into_iter()
            .map(String::from)
            .collect()
    };
    assert_eq!(outcome.err, "", "{options}");
    let traced = desk.run(&format!("run p.bin {options} --json --trace-to t.txt"));
    assert_eq!(listed(&traced.out), listed(&outcome.out), "{options}");
    (outcome.status, listed(&outcome.out))
}

/// The incident: built for M, and the shadow stack on, which the hart has in S and U only.
#[test]
fn pushes_in_m_are_noted_and_counted() {
    let words = [SSPUSH_RA, SSPOPCHK_RA, SSPUSH_RA, ECALL];
    let options = "--memory 4K --shadow-stack --expect ecall";
    let note = "the shadow stack is on, and 2 pushes and 1 pop-check did nothing: met in M, where the hart has no shadow stack (a program in U with Sv39 has it)";
    assert_eq!(
        notes("incident", &words, options),
        (0, vec![note.to_string()])
    );
    assert_eq!(notes("strict", &words, &format!("{options} --strict")).0, 3);
    let (status, none) = notes("off", &words, "--memory 4K --expect ecall --strict");
    assert_eq!((status, none.len()), (0, 0), "nothing is on");
    let desk = Desk::new("incident-words");
    desk.image("p.bin", &words);
    let said = desk.run(&format!("run p.bin {options}")).out;
    assert!(
        said.contains(
            "\n  note      the shadow stack is on, and 2 pushes and 1 pop-check did nothing"
        ),
        "{said}"
    );
}

#[test]
fn a_shadow_stack_that_acts_needs_no_note() {
    let words = [SSPUSH_RA, SSPOPCHK_RA, ECALL];
    let options = format!("{USER} --shadow-stack --ssp 0x31000 --expect ecall --strict");
    assert_eq!(notes("acts", &words, &options), (0, vec![]));
}

#[test]
fn pushes_with_the_enable_off() {
    let words = [SSPUSH_RA, ECALL];
    let options = format!("{USER} --csr menvcfg=8 --ssp 0x31000");
    let note = "the shadow stack is on, and 1 push did nothing: met in U, while menvcfg.SSE or senvcfg.SSE was 0";
    assert_eq!(notes("enable", &words, &options).1, [note]);
    let csrrw = 0x30a0_1073; // csrw menvcfg,zero
    let (_, noted) = notes(
        "turned-off",
        &[csrrw, SSPOPCHK_RA, ECALL],
        "--memory 4K --shadow-stack",
    );
    assert!(
        noted[0].contains("1 pop-check did nothing: met in M"),
        "{noted:?}"
    );
}

#[test]
fn a_program_without_pushes() {
    let options = format!("{USER} --shadow-stack --ssp 0x31000");
    let note = "the shadow stack is on, and no push or pop-check was met: the program may be built without them (docs/C.md)";
    assert_eq!(notes("without", &[NOP, ECALL], &options).1, [note]);
}

/// A long run is counted to the last one: 300,000 pushes in a loop.
#[test]
fn a_long_count_is_exact() {
    let desk = Desk::new("long-count");
    let words = [
        SSPUSH_RA,
        0xfff5_0513, // addi a0,a0,-1
        0xfe05_1ce3, // bnez a0,.-8
        ECALL,
    ];
    desk.image("p.bin", &words);
    let outcome = desk.run("run p.bin --memory 4K --shadow-stack --x a0=300000 --expect ecall");
    assert!(outcome.out.contains("in step 900001"), "{}", outcome.out);
    assert!(
        outcome.out.contains("300000 pushes did nothing"),
        "{}",
        outcome.out
    );
}

/// A push that the program itself writes right before it is met, and takes away behind it.
#[test]
fn a_push_that_was_not_there_before() {
    let words = [
        SW_A0_A1, // over the next word but one
        NOP,
        NOP,
        0x0005_a023, // sw zero,0(a1)
        ECALL,
    ];
    let options = "--memory 4K --shadow-stack --x a0=0xce104073 --x a1=0x80000008";
    let (_, noted) = notes("written", &words, options);
    assert!(
        noted[0].contains("1 push did nothing: met in M"),
        "{noted:?}"
    );
}

#[test]
fn landing_pads() {
    let note = "landing pads are on, and no pad was looked for: no indirect jump was made in a mode where they are on";
    assert_eq!(
        notes("no-jump", &[NOP, ECALL], "--memory 4K --landing-pads").1,
        [note]
    );
    let jump = [JR_A0, NOP, LPAD, ECALL];
    assert_eq!(
        notes(
            "jump",
            &jump,
            "--memory 4K --landing-pads --x a0=0x80000008"
        )
        .1
        .len(),
        0
    );
    let missing = [JR_A0, NOP, NOP];
    assert_eq!(
        notes(
            "missing",
            &missing,
            "--memory 4K --landing-pads --x a0=0x80000008"
        )
        .1
        .len(),
        0
    );
    // Pads that are on in U only, and a jump in M.
    assert_eq!(
        notes(
            "elsewhere",
            &jump,
            "--memory 4K --csr senvcfg=4 --x a0=0x80000008"
        )
        .1,
        [note]
    );
}

#[test]
fn a_map_that_is_not_in_use() {
    let note = "the map was not in use: no access was made in S or U with satp on (--sv39 turns it on, --mode U starts in U)";
    assert_eq!(
        notes(
            "bare",
            &[NOP, ECALL],
            "--memory 16K --map user.map --mode U"
        )
        .1,
        [note]
    );
    assert_eq!(
        notes("m", &[NOP, ECALL], "--memory 16K --map user.map --sv39").1,
        [note]
    );
    assert_eq!(notes("used", &[NOP, ECALL], USER).1.len(), 0);
    // In M, by MPRV alone; and a program in M that goes to U.
    let mprv = "--memory 16K --map user.map --sv39 --csr mstatus=0x20000 --x a1=0x20000";
    assert_eq!(notes("mprv", &[NOP, LD_A0_A1, ECALL], mprv).1.len(), 0);
    let down = "--memory 16K --map user.map --sv39 --csr mepc=0x10008";
    assert_eq!(notes("down", &[NOP, MRET, ECALL], down).1.len(), 0);
}

#[test]
fn masking_that_changes_no_address() {
    let note = "masking is on, and changed the address of no access";
    let run = |test: &str, address: &str| {
        let options = format!("{USER} --masking 7 --x a1={address} --expect ecall");
        notes(test, &[LD_A0_A1, ECALL], &options).1
    };
    assert_eq!(run("untagged", "0x20000"), [note]);
    assert_eq!(run("tagged", "0x5400000000020000").len(), 0);
}

/// Where no step was made, nothing could have an effect.
#[test]
fn no_step_no_note() {
    let options = "--memory 4K --shadow-stack --landing-pads --masking 7 --steps 0 --strict";
    assert_eq!(notes("none", &[NOP], options), (0, vec![]));
}
