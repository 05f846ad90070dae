//! `--word`: a word or an instruction's text that the first step takes and does not fetch.

mod common;

use common::{Desk, Outcome, COUNTDOWN, ECALL, NOP};

/// `desk run` with arguments that may hold blanks.
fn run(desk: &Desk, arguments: &[&str]) -> Outcome {
    let all = [&["run"], arguments].concat();
    Outcome::of(desk.command(&all).output().unwrap())
}

#[test]
fn the_first_step_takes_the_word_and_the_next_one_fetches() {
    let desk = Desk::new("given-first");
    desk.image("p.bin", &COUNTDOWN);
    let given =
        "  given     00300513  li a0,3: the first step's word, in place of a fetch at 0x80000000\n";
    let arguments = ["p.bin", "--expect", "ecall", "--registers", "--word"];
    let text = run(&desk, &[&arguments[..], &["li a0,3"]].concat());
    assert_eq!((text.status, text.err.as_str()), (0, ""), "{}", text.out);
    assert!(text.out.contains(given), "{}", text.out);
    // li, four times bnez with three times addi between them, and the call.
    assert!(text
        .out
        .starts_with("Stopped by a trap in step 9: cause 11"));
    for word in ["0x00300513", "00300513", "3147027", " li  a0, 3 # three"] {
        let same = run(&desk, &[&arguments[..], &[word]].concat());
        assert_eq!((same.out, same.err.as_str()), (text.out.clone(), ""));
    }
    let traced = run(
        &desk,
        &["p.bin", "--word", "li a0,3", "--trace", "--steps", "2"],
    );
    let lines: Vec<&str> = traced.out.lines().collect();
    assert!(
        lines[0].contains(" 00300513  li a0,3 (given) "),
        "{}",
        lines[0]
    );
    assert!(
        lines[1].contains(" fe051ee3  bnez a0,0x80000000 "),
        "{}",
        lines[1]
    );
    let memory = run(
        &desk,
        &[
            "p.bin",
            "--steps",
            "1",
            "--word",
            "nop",
            "--dump",
            "0x80000000:4",
        ],
    );
    assert!(memory.out.contains("13 05 f5 ff"), "{}", memory.out);
}

/// A trap of the given word is explained by that word, with the trace and without, and told to programs.
#[test]
fn a_trap_of_the_word_is_explained() {
    let desk = Desk::new("given-trap");
    desk.image("p.bin", &[NOP, ECALL]);
    let plain = run(&desk, &["p.bin", "--word", "lw a0,8(zero)"]);
    assert_eq!(plain.status, 3);
    for part in [
        "Stopped by a trap in step 1: cause 5 (load access fault), tval 0x8",
        "  at        0x80000000 in M: 00802503  lw a0,8(zero) (given, not fetched)\n",
        "  access    load of 4 bytes at 0x8\n",
    ] {
        assert!(plain.out.contains(part), "{part}: {}", plain.out);
    }
    let traced = run(
        &desk,
        &["p.bin", "--word", "lw a0,8(zero)", "--trace-to", "t.txt"],
    );
    assert_eq!(traced.out, plain.out);
    let object = desk.object("run p.bin --word 0x00000073 --expect ecall --json");
    assert_eq!(object.at("given").at("word").text(), "0x00000073");
    assert_eq!(object.at("given").at("text").text(), "ecall");
    let none = desk.run("run p.bin --expect ecall --json");
    assert!(!none.out.contains("\"given\""));
}

/// A word that leaves the hart as it was is no end: the next step fetches another.
#[test]
fn a_given_word_is_taken_once() {
    let desk = Desk::new("given-once");
    desk.image("p.bin", &COUNTDOWN);
    let jump = run(
        &desk,
        &["p.bin", "--x", "a0=1", "--word", "j .", "--expect", "ecall"],
    );
    assert_eq!(jump.status, 0, "{}", jump.out);
    assert!(
        jump.out.starts_with("Stopped by a trap in step 4"),
        "{}",
        jump.out
    );
    // mtvec is the address of the trap itself, and all that a trap writes is there before: it is followed, and not stuck.
    let first = [
        "p.bin",
        "--x",
        "a0=1",
        "--word",
        "ecall",
        "--follow",
        "1",
        "--csr",
        "mtvec=0x80000000",
    ];
    let set = [
        "--csr",
        "mepc=0x80000000",
        "--csr",
        "mcause=11",
        "--csr",
        "mstatus=0x1800",
        "--expect",
        "ecall",
    ];
    let trap = run(&desk, &[&first[..], &set[..]].concat());
    assert!(
        trap.out
            .starts_with("Stopped by a trap in step 4, 1 trap before it followed"),
        "{}",
        trap.out
    );
    let none = run(&desk, &["p.bin", "--word", "j .", "--steps", "0"]);
    assert!(none
        .out
        .contains("  next      0x80000000 in M: 0000006f  j 0x80000000 (given, not fetched)\n"));
    // Where nothing can be fetched, a given word is still taken.
    let outside = run(
        &desk,
        &[
            "p.bin",
            "--pc",
            "0x1000",
            "--word",
            "jr a0",
            "--x",
            "a0=0x80000008",
            "--expect",
            "ecall",
        ],
    );
    assert_eq!(outside.status, 0, "{}", outside.out);
}

/// A shadow-stack word and a landing pad have their effect, and the notes see them.
#[test]
fn what_the_word_uses_is_seen() {
    let desk = Desk::new("given-notes");
    desk.image("p.bin", &[ECALL, ECALL]);
    let user = "run p.bin --memory 16K --map user.map --mode U --pc 0x10000 --sv39 --shadow-stack --ssp 0x31000 --expect ecall --strict";
    let unused = desk.run(user);
    assert_eq!(unused.status, 3, "{}", unused.out);
    let pushed = desk.run(&format!("{user} --word 0xce104073"));
    assert_eq!(pushed.status, 0, "{}", pushed.out);
}

/// Windows of the trace and the profile see the given word as they see a fetched one.
#[test]
fn windows_and_the_profile_see_the_word() {
    let desk = Desk::new("given-window");
    desk.image("p.bin", &[NOP, ECALL, NOP, ECALL]);
    let first = "      1 M 0x0000000080000000 008000ef  jal 0x80000008 (given) ";
    for window in [
        &["--trace-last", "9"][..],
        &["--trace-from", "1"],
        &["--trace-from", "v:0x80000000"],
    ] {
        let run = run(&desk, &[&["p.bin", "--word", "jal .+8"], window].concat());
        assert!(run.out.starts_with(first), "{window:?}: {}", run.out);
    }
    let later = run(
        &desk,
        &["p.bin", "--word", "jal .+8", "--trace-from", "v:0x80000008"],
    );
    assert!(
        later.out.starts_with("      2 M 0x0000000080000008 "),
        "{}",
        later.out
    );
    // The given jump is a call: the function that it calls has steps of its own, and is entered.
    let called = desk.run("run p.bin --word 0x008000ef --profile --expect ecall --json");
    assert_eq!(called.status, 0, "{}", called.out);
    let function = "\"address\": \"0x0000000080000008\"";
    assert!(called.out.contains(function), "{}", called.out);
    // A jump that keeps no return address is none.
    let jump = desk.run("run p.bin --word 0x0080006f --profile --expect ecall --json");
    assert!(!jump.out.contains(function), "{}", jump.out);
}

#[test]
fn a_wrong_word_is_refused() {
    let desk = Desk::new("given-wrong");
    desk.image("p.bin", &[ECALL]);
    for (word, line) in [
        ("addi a0,a0", "--word: column 11: 2 operands are given; write addi rd,rs1,N"),
        ("j 0x8000", "--word: column 3: 0x8000 is out of reach; from 0x80000000 it may be 0x7ff00000 to 0x800ffffe, .-1048576 to .+1048574"),
        ("0x100000000", "--word: 0x100000000 has more than 32 bits; a word is at most 0xffffffff"),
        ("12z", "--word: '12z' is not a number; write it as 4096, 0x1000 or 0b1000"),
        ("# nothing", "--word: no instruction is given; write it as 'addi a0,a0,-1' or 0xfff50513"),
        ("nop\nnop", "--word: column 5: 1 operand is given; write nop"),
        ("", "--word: its WORD|TEXT is missing; write --word WORD|TEXT"),
    ] {
        let outcome = run(&desk, &["p.bin", "--word", word]);
        assert_eq!(outcome.err, format!("desk: {line}\n"));
        assert_eq!((outcome.status, outcome.out.as_str()), (2, ""), "{word}");
    }
}
