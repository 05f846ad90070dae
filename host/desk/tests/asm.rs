//! `desk asm`: what it prints and writes, what `desk disasm` makes of it, and wrong lines.

mod common;

use common::{Desk, Outcome, COUNTDOWN};

/// The desk with arguments that may hold blanks.
fn asm(desk: &Desk, arguments: &[&str]) -> Outcome {
    let all = [&["asm"], arguments].concat();
    Outcome::of(desk.command(&all).output().unwrap())
}

const PROGRAM: &str = "# counts down\naddi a0,a0,-1\nbnez a0,0x80000000\n\necall # the end\n";

#[test]
fn texts_become_words_as_disasm_takes_them() {
    let desk = Desk::new("asm-words");
    let words = asm(&desk, &["addi a0,a0,-1", "bnez a0,.-4", "ecall"]);
    assert_eq!((words.status, words.err.as_str()), (0, ""));
    assert_eq!(words.out, "0xfff50513\n0xfe051ee3\n0x00000073\n");
    let back = desk.run(&format!("disasm {}", words.out.replace('\n', " ")));
    assert_eq!(
        back.out,
        "0x80000000:  fff50513  addi a0,a0,-1\n0x80000004:  fe051ee3  bnez a0,0x80000000\n0x80000008:  00000073  ecall\n"
    );
    desk.file("p.s", PROGRAM);
    assert_eq!(desk.run("asm --file p.s").out, words.out);
    assert_eq!(desk.run_with("asm --file -", PROGRAM).out, words.out);
    let at = asm(&desk, &["--at", "0x1000", "j 0x1004", "j 0x1000"]);
    assert_eq!(at.out, "0x0040006f\n0xffdff06f\n");
}

#[test]
fn words_are_written_as_an_image_that_runs() {
    let desk = Desk::new("asm-image");
    desk.file("p.s", PROGRAM);
    let written = desk.run("asm --file p.s -o p.bin");
    assert_eq!(
        (written.status, written.out.as_str(), written.err.as_str()),
        (0, "", "")
    );
    let expected: Vec<u8> = COUNTDOWN
        .iter()
        .flat_map(|word| word.to_le_bytes())
        .collect();
    assert_eq!(std::fs::read(desk.folder.join("p.bin")).unwrap(), expected);
    assert_eq!(desk.run("run p.bin --x a0=3 --expect ecall").status, 0);
}

/// One line on stderr, status 2, no output, and a file that was there stays as it was.
#[test]
#[rustfmt::skip]
fn a_wrong_line_changes_nothing() {
    let desk = Desk::new("asm-wrong");
    desk.file("p.s", "nop\n\taddi a0,a0,5000\nqqq\n");
    desk.file("empty.s", "# nothing\n");
    desk.file("latin.s", b"nop # \xe4");
    desk.file("kept.bin", "kept");
    for (arguments, line) in [
        (&["nop", "addi a0,a0"][..], "asm: line 2, column 11: 2 operands are given; write addi rd,rs1,N"),
        (&["addii a0,a0,1"], "asm: line 1, column 1: 'addii' is no instruction of this hart; did you mean addi?"),
        (&["--at", "0", "j 0x80000000"], "asm: line 1, column 3: 0x80000000 is out of reach; from 0x0 it may be 0xfffffffffff00000 to 0xffffe, .-1048576 to .+1048574"),
        (&["--at", "2", "nop"], "--at: 0x2 is not a multiple of 4; try 0x0"),
        (&["--file", "p.s", "-o", "kept.bin"], "p.s: line 2, column 13: 5000 is out of reach; it may be -2048 to 2047"),
        (&["--file", "p.s", "nop"], "--file: the text 'nop' is given too; give texts or a file"),
        (&["nop", "-o", "no/p.bin"], "-o: 'no/p.bin' cannot be written (No such file or directory (os error 2)); give a file in a folder where you may write"),
        (&["--file", "none.s"], "none.s: there is no such file; check the path"),
        (&["--file", "latin.s"], "latin.s: it is no text (not UTF-8); give a text file"),
        (&["--file", "empty.s"], "empty.s: no instruction is given; write desk asm 'addi a0,a0,-1' or --file FILE"),
        (&["--file", "-"], "the standard input: no instruction is given; write desk asm 'addi a0,a0,-1' or --file FILE"),
        (&[], "asm: no instruction is given; write desk asm 'addi a0,a0,-1' or --file FILE"),
    ] {
        let outcome = asm(&desk, arguments);
        assert_eq!(outcome.err, format!("desk: {line}\n"));
        assert_eq!((outcome.status, outcome.out.as_str()), (2, ""), "{arguments:?}");
    }
    assert_eq!(std::fs::read(desk.folder.join("kept.bin")).unwrap(), b"kept");
    desk.file("q.s", "nop\n");
    let own = asm(&desk, &["--file", "q.s", "-o", "q.s"]);
    assert_eq!(own.err, "desk: -o: 'q.s' is the text, which would be lost; give another file\n");
    assert_eq!(std::fs::read(desk.folder.join("q.s")).unwrap(), b"nop\n");
}
