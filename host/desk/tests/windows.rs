//! Windows of a trace: from a step or a symbol on, so many steps, or the last ones; each shows what the whole trace shows there.

mod common;

use common::elf::*;
use common::json::Reader;
use common::*;
use std::fs;

/// The trace of a run, step by step with all the lines of a step, and what the desk says at the end.
fn traced(desk: &Desk, run: &str, window: &str) -> (Vec<String>, String) {
    let outcome = desk.run(&format!("{run} {window} --trace-to t.txt"));
    assert_eq!(outcome.err, "", "{run} {window}");
    let text = fs::read_to_string(desk.folder.join("t.txt")).unwrap();
    let mut steps: Vec<String> = Vec::new();
    for line in text.lines() {
        match steps.last_mut() {
            // What belongs to a step is set in further than the number of one.
            Some(step) if line.starts_with("        ") => *step += line,
            _ => steps.push(line.into()),
        }
    }
    (steps, outcome.out)
}

/// A program that stores, loops and traps into a handler, which is followed.
fn looping(test: &str) -> (Desk, &'static str) {
    let desk = Desk::new(test);
    // sd a0,0(a1); addi a0,a0,1; ecall; and again from the handler.
    desk.image("p.bin", &[SD_A0_A1, 0x0015_0513, ECALL, J_SELF]);
    let run =
        "run p.bin --memory 8K --x a1=0x80001000 --csr mtvec=0x80000000 --follow all --steps 20";
    (desk, run)
}

#[test]
fn a_window_is_a_part_of_the_whole() {
    let (desk, run) = looping("windows-part");
    let (whole, end) = traced(&desk, run, "");
    assert_eq!(whole.len(), 20);
    for from in 1..=20 {
        let (part, same) = traced(&desk, run, &format!("--trace-from {from}"));
        assert_eq!(
            (&part[..], &same),
            (&whole[from - 1..], &end),
            "from {from}"
        );
        for steps in 1..=4 {
            let window = format!("--trace-from {from} --trace-steps {steps}");
            let (part, same) = traced(&desk, run, &window);
            let last = (from - 1 + steps).min(20);
            assert_eq!(
                (&part[..], &same),
                (&whole[from - 1..last], &end),
                "{window}"
            );
        }
    }
    let (first, _) = traced(&desk, run, "--trace-steps 3");
    assert_eq!(first, whole[..3]);
}

#[test]
fn the_last_steps_are_those_of_the_whole() {
    let (desk, run) = looping("windows-last");
    let (whole, end) = traced(&desk, run, "");
    for last in [1, 2, 5, 19, 20, 21, 100_000] {
        let (part, same) = traced(&desk, run, &format!("--trace-last {last}"));
        let first = 20usize.saturating_sub(last);
        assert_eq!((&part[..], &same), (&whole[first..], &end), "last {last}");
    }
    let (none, _) = traced(&desk, "run p.bin --steps 0", "--trace-last 5");
    assert!(none.is_empty());
}

/// Over several calls of the proved run, by each way the same steps; and they are shown before the report.
#[test]
fn the_end_of_a_long_run() {
    let desk = Desk::new("windows-long");
    desk.image("p.bin", &COUNTDOWN);
    let run = "run p.bin --memory 4K --x a0=1500000";
    let (last, end) = traced(&desk, run, "--trace-last 100000");
    let (from, same) = traced(&desk, run, "--trace-from 2900002");
    assert_eq!((last.len(), end), (100_000, same));
    assert_eq!(last, from);
    let outcome = desk.run(&format!("{run} --trace-last 2"));
    assert_eq!(
        outcome.out,
        "\
3000000 M 0x0000000080000004 fe051ee3  bnez a0,0x80000000
3000001 M 0x0000000080000008 00000073  ecall                        trap 11 (environment call from M)
                                                                    pc=0x0 mstatus=0xa00001800
                                                                    mepc=0x80000008 mcause=0xb
Stopped by a trap in step 3000001: cause 11 (environment call from M), tval 0x0, from M to M.
  at        0x80000008 in M: 00000073  ecall
  why       the program made an environment call from M
  values    a7 = 0x0, a0 = 0x0, a1 = 0x0, a2 = 0x0
  handler   0x0 in M: no word can be fetched there
"
    );
}

/// What the environment did is done again where steps are found again, and not asked of it twice: brk, over a thousand times.
#[test]
fn served_calls_are_among_the_last_steps() {
    let desk = Desk::new("windows-served");
    // sd a0,0(a1); ecall; addi a2,a2,-1; bnez a2,.-12; ebreak
    let words = [SD_A0_A1, ECALL, 0xfff6_0613, 0xfe06_1ae3, EBREAK];
    desk.image("p.bin", &words);
    let run = "run p.bin --memory 8K --syscalls --x a7=214 --x a1=0x80001000 --x a2=2500";
    let (whole, end) = traced(&desk, run, "");
    let served = |steps: &[String]| {
        steps
            .iter()
            .filter(|step| step.contains("served: "))
            .count()
    };
    assert_eq!(served(&whole), 2500);
    for last in [1, 7, 4000, 9999, 20_000] {
        let (part, same) = traced(&desk, run, &format!("--trace-last {last}"));
        let first = whole.len().saturating_sub(last);
        assert_eq!((&part[..], &same), (&whole[first..], &end), "last {last}");
    }
}

/// What a program read is there when its last steps are made again.
#[test]
fn what_was_read_is_there_again() {
    let desk = Desk::new("windows-read");
    desk.file("input", "the quick brown fox");
    // li a0,0; ecall (read of one byte); lbu a3,0(a1); bnez a0,.-12; ebreak
    let words = [0x0000_0513, ECALL, 0x0005_c683, 0xfe05_1ae3, EBREAK];
    desk.image("p.bin", &words);
    let run =
        "run p.bin --memory 4K --syscalls --expect ebreak --x a7=63 --x a1=0x80000f00 --x a2=1";
    let traced = |window: &str| {
        let line = format!("{run} {window} --trace-to t.txt");
        let words: Vec<&str> = line.split_whitespace().collect();
        let input = fs::File::open(desk.folder.join("input")).unwrap();
        let output = desk.command(&words).stdin(input).output().unwrap();
        assert_eq!(output.status.code(), Some(0), "{output:?}");
        fs::read_to_string(desk.folder.join("t.txt")).unwrap()
    };
    let (whole, last) = (traced(""), traced("--trace-last 30"));
    assert!(whole.contains("a3=0x71"), "{whole}"); // q
    assert!(
        last.contains("a3=0x78") && !last.contains("a3=0x71"),
        "{last}"
    ); // x
    assert!(whole.ends_with(&last), "{last}");
}

/// What the environment wrote is kept within bounds; where that is too little for the steps asked for, it is said.
#[test]
fn a_past_that_is_too_large_is_told() {
    let desk = Desk::new("windows-large");
    // ecall (fstat: 128 bytes to 0x80000f00); addi a2,a2,-1; bnez a2,.-8; ebreak
    let words = [ECALL, 0xfff6_0613, 0xfe06_1ce3, EBREAK];
    desk.image("p.bin", &words);
    let run =
        "run p.bin --memory 4K --syscalls --expect ebreak --x a7=80 --x a1=0x80000f00 --x a2=5000";
    let (whole, _) = traced(&desk, run, "");
    let (part, end) = traced(&desk, run, "--trace-last 10000");
    let note = format!("the trace has the last {} steps and not 10000:", part.len());
    assert!(end.replace("\n            ", " ").contains(&note), "{end}");
    assert!((6000..10_000).contains(&part.len()), "{}", part.len());
    assert_eq!(part, whole[whole.len() - part.len()..]);
    let (part, end) = traced(&desk, run, "--trace-last 6000");
    assert!(!end.contains("note"), "{end}");
    assert_eq!(part, whole[whole.len() - 6000..]);
}

/// main calls check twice.
fn calling(desk: &Desk) {
    let (jal_12, jal_8, ret) = (0x00c0_00ef, 0x0080_00ef, 0x0000_8067);
    let mut elf = program(&[jal_12, jal_8, ECALL, ret]);
    elf.loads[0].address = 0x10000;
    elf.entry = 0x10000;
    elf.symbols = vec![
        Symbol("main", 0x10000, 12, FUNCTION),
        Symbol("check", 0x1000c, 4, FUNCTION),
        Symbol("unused", 0x10008, 0, LABEL),
    ];
    desk.file("p.elf", elf.bytes());
}

/// At the first step at the symbol, by virtual addresses under Sv39 and where the segment was put in M.
#[test]
fn from_a_symbol_on() {
    let desk = Desk::new("windows-symbol");
    calling(&desk);
    for (options, mode, at) in [
        (USER.replace("--pc 0x10000", ""), 'U', 0x1000c),
        ("--memory 4K --pc 0x80000000".into(), 'M', 0x8000_000cu64),
    ] {
        let run = format!("run p.elf {options} --expect ecall");
        let (steps, end) = traced(&desk, &run, "--trace-from check --trace-steps 2");
        for place in [format!("v:{at:#x}"), "main+12".into(), "main+0xc".into()] {
            let window = format!("--trace-from {place} --trace-steps 2");
            assert_eq!(
                traced(&desk, &run, &window),
                (steps.clone(), end.clone()),
                "{place}"
            );
        }
        let ret = format!("{at:#x} <check+0x0>");
        let step = format!("      2 {mode} {at:#018x} 00008067  ret");
        assert_eq!(steps[0], ret);
        assert!(steps[1].starts_with(&step), "{steps:?}");
        assert!(steps[3].starts_with("      3 "), "{steps:?}");
        assert_eq!(steps.len(), 4, "{steps:?}");
    }
    // Where it begins there, with the first step.
    let (steps, _) = traced(
        &desk,
        "run p.elf --pc 0x80000000",
        "--trace-from main --trace-steps 1",
    );
    assert!(steps[1].starts_with("      1 M"), "{steps:?}");
}

/// A program that writes a jump into its own words ahead: the desk looks for the address in stretches, and none goes over a store.
#[test]
fn from_where_changed_words_lead() {
    let desk = Desk::new("windows-changed");
    // sd a0,0(a1) puts j .+16 and a nop to 0x80000008.
    desk.image("p.bin", &[SD_A0_A1, NOP, NOP, NOP, NOP, NOP, NOP, ECALL]);
    let run = "run p.bin --memory 4K --x a1=0x80000008 --x a0=0x000000130100006f";
    let (steps, _) = traced(&desk, run, "--trace-from v:0x80000018 --trace-steps 1");
    assert_eq!(steps.len(), 1);
    let step = "      4 M 0x0000000080000018 00000013  nop";
    assert!(steps[0].starts_with(step), "{steps:?}");
}

/// A window that the run never reached is a note.
#[test]
fn a_window_that_is_never_reached_is_told() {
    let desk = Desk::new("windows-missed");
    calling(&desk);
    let run = "run p.elf --memory 4K --pc 0x80000000 --steps 3";
    for (window, note) in [
        (
            "--trace-from 4",
            "the trace is empty: the run ended before step 4",
        ),
        (
            "--trace-from v:0x80000002",
            "the trace is empty: the hart never came to v:0x80000002",
        ),
        (
            "--trace-from unused",
            "the trace is empty: the hart never came to unused",
        ),
    ] {
        let outcome = desk.run(&format!("{run} {window}"));
        assert!(
            outcome.out.contains(&format!("  note      {note}\n")),
            "{}",
            outcome.out
        );
        assert_eq!(outcome.status, 0, "{window}");
        let strict = desk.run(&format!("{run} {window} --strict --json --trace-to t.txt"));
        assert_eq!(strict.status, 3, "{window}");
        assert_eq!(Reader::whole(&strict.out).at("notes").texts(), [note]);
    }
    let reached = desk.run(&format!("{run} --trace-from 3 --strict"));
    assert_eq!(reached.status, 0, "{}", reached.out);
    // A trace of a run of no steps is empty by right.
    assert_eq!(
        desk.run("run p.elf --pc 0x80000000 --steps 0 --trace --strict")
            .status,
        0
    );
}

#[test]
#[rustfmt::skip]
fn wrong_windows() {
    refused("windows-wrong", calling, &[
        ("run ok.bin --trace-from 0", "--trace-from: the first step is 1; give a step from 1 on, a symbol or v:ADDRESS"),
        ("run ok.bin --trace-from 1x", "--trace-from: '1x' is not a number; write it as 4096, 0x1000 or 0b1000"),
        ("run ok.bin --trace-from main", "--trace-from: 'main' is no number, and there are no symbols; give an ELF file, or --symbols FILE.elf"),
        ("run p.elf --trace-from mian", "--trace-from: there is no symbol 'mian'; did you mean main?"),
        ("run ok.bin --trace-from", "--trace-from: its WHERE|STEP is missing; write --trace-from WHERE|STEP"),
        ("run ok.bin --trace-from v:main", "--trace-from: 'main' is not a number; write it as 4096, 0x1000 or 0b1000"),
        ("run p.elf --trace-from main+0xffffffffffff0000", "--trace-from: main+0xffffffffffff0000 lies past the last address; give less"),
        ("run ok.bin --trace-steps 0", "--trace-steps: 0 steps show nothing; try 1 or more"),
        ("run ok.bin --trace-steps few", "--trace-steps: 'few' is not a number; write it as 4096, 0x1000 or 0b1000"),
        ("run ok.bin --trace-last 0", "--trace-last: 0 steps show nothing; try 1 or more"),
        ("run ok.bin --trace-last 100001", "--trace-last: the desk keeps at most the last 100000 steps; for more give --trace-from STEP"),
        ("run ok.bin --trace-last 5 --trace-from 3", "--trace-last: it does not go with --trace-from; leave one out"),
        ("run ok.bin --trace-last 5 --trace-steps 3", "--trace-last: it does not go with --trace-steps; leave one out"),
        ("run ok.bin --trace-last 5 --json", "--trace-last: with --json the trace needs a place of its own; add --trace-to FILE"),
        ("run ok.bin --trace-from 5 --json", "--trace-from: with --json the trace needs a place of its own; add --trace-to FILE"),
        ("run ok.bin --trace-steps 5 --json", "--trace-steps: with --json the trace needs a place of its own; add --trace-to FILE"),
    ]);
}
