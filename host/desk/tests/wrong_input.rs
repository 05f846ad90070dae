//! Bad input of every kind: one line on stderr that names the place and what would be right, and status 2.

mod common;

use common::{refused, Desk, ECALL};

#[test]
#[rustfmt::skip]
fn commands() {
    refused("commands", |_| (), &[
        ("", "no command is given; write desk run, frames, demo, disasm, asm, hex or help"),
        ("runn ok.bin", "runn: the desk has no such command; did you mean run?"),
        ("simulate", "simulate: the desk has no such command; the commands are run, frames, demo, disasm, asm, hex and help"),
        ("help rnu", "rnu: the desk has no such command; the commands are run, frames, demo, disasm, asm, hex and help"),
        ("help run demo", "help: 'demo' is not needed; name one command"),
        ("demo now", "demo: 'now' is not needed; write desk demo [--svg FILE]"),
        ("demo --svg", "--svg: its FILE is missing; write --svg FILE"),
        ("--version", "--version: the desk has no such option; 'desk help' lists its commands"),
        ("-v run ok.bin", "-v: the desk has no such option; 'desk help' lists its commands"),
        ("help --all", "--all: the desk has no such command; the commands are run, frames, demo, disasm, asm, hex and help"),
        ("run", "run: the image is missing; write desk run IMAGE [options]"),
        ("run ok.bin user.map", "run: 'user.map' is not needed; write desk run IMAGE [options]"),
    ]);
}

#[test]
#[rustfmt::skip]
fn options() {
    refused("options", |_| (), &[
        ("run ok.bin --memroy 64K", "--memroy: 'desk run' has no such option; did you mean --memory?"),
        ("run ok.bin --banana", "--banana: 'desk run' has no such option; 'desk help run' lists them"),
        ("run ok.bin -m", "-m: 'desk run' has no such option; 'desk help run' lists them"),
        ("run ok.bin --memory", "--memory: its SIZE is missing; write --memory SIZE"),
        ("run ok.bin --memory --trace", "--memory: its SIZE is missing; write --memory SIZE"),
        ("run ok.bin --memory=", "--memory: its SIZE is missing; write --memory SIZE"),
        ("run ok.bin --steps 1 --steps=2", "--steps: it is given twice; give it once"),
        ("run ok.bin --sv39 --sv39", "--sv39: it is given twice; give it once"),
        ("run ok.bin --sv39=1", "--sv39: it takes no value; write it alone"),
        ("run ok.bin --trace --json", "--trace: with --json the trace needs a place of its own; add --trace-to FILE"),
    ]);
}

#[test]
#[rustfmt::skip]
fn images() {
    let prepare = |desk: &Desk| {
        desk.file("empty.bin", "");
        desk.file("big.bin", vec![0; 5000]);
        desk.file("huge.bin", vec![0; 1_048_577]);
    };
    refused("images", prepare, &[
        ("run none.bin", "none.bin: there is no such file; check the path"),
        ("run .", ".: it is a folder; give a file"),
        ("run empty.bin", "empty.bin: the image is empty; give a file with at least one instruction"),
        ("run big.bin --memory 4096", "big.bin: the image has 5000 bytes and memory 4096; try --memory 8192"),
        ("run huge.bin", "huge.bin: the image has more than 1048576 bytes (1M), the largest memory"),
        ("run ok.bin --trace-to no/trace", "--trace-to: 'no/trace' cannot be written (No such file or directory (os error 2)); give a file in a folder where you may write"),
        ("run ok.bin --save no/mem", "--save: 'no/mem' cannot be written (No such file or directory (os error 2)); give a file in a folder where you may write"),
    ]);
}

/// Wrong input loses nothing: what is read is never written to, and no empty file stays behind.
#[test]
#[rustfmt::skip]
fn outputs() {
    let prepare = |desk: &Desk| std::fs::hard_link(desk.folder.join("ok.bin"), desk.folder.join("same.bin")).unwrap();
    refused("outputs", prepare, &[
        ("run ok.bin --save ok.bin", "--save: 'ok.bin' is the image, which would be lost; give another file"),
        ("run ok.bin --save same.bin", "--save: 'same.bin' is the image, which would be lost; give another file"),
        ("run ok.bin --trace-to ./ok.bin", "--trace-to: './ok.bin' is the image, which would be lost; give another file"),
        ("run ok.bin --map user.map --save user.map", "--save: 'user.map' is the page map, which would be lost; give another file"),
        ("run ok.bin --trace-to new --save new", "--save: 'new' is the trace, which would be lost; give another file"),
        ("run ok.bin --trace-to new --save no/mem", "--save: 'no/mem' cannot be written (No such file or directory (os error 2)); give a file in a folder where you may write"),
        ("run ok.bin --save new --pc 2", "--pc: 0x2 is not a multiple of 4; try 0x0 or 0x4 (the hart's refusal 1)"),
        ("run ok.bin --save user.map --pc 2", "--pc: 0x2 is not a multiple of 4; try 0x0 or 0x4 (the hart's refusal 1)"),
    ]);
    let desk = Desk::new("outputs-kept");
    desk.image("ok.bin", &[ECALL]);
    desk.run("run ok.bin --trace-to ok.bin");
    desk.run("run ok.bin --map user.map --save user.map");
    desk.run("run ok.bin --trace-to new --pc 2");
    assert_eq!(std::fs::read(desk.folder.join("ok.bin")).unwrap(), ECALL.to_le_bytes());
    assert_eq!(std::fs::read_to_string(desk.folder.join("user.map")).unwrap(), common::MAP);
    assert!(!desk.folder.join("new").exists());
}

#[test]
#[rustfmt::skip]
fn numbers() {
    refused("numbers", |_| (), &[
        ("run ok.bin --memory 70000", "--memory: 70000 is not a multiple of 4096; try 69632 or 73728"),
        ("run ok.bin --memory 100", "--memory: 100 is not a multiple of 4096; try 4096"),
        ("run ok.bin --memory 0", "--memory: 0 bytes are no memory; try 4096 or more, for instance 64K"),
        ("run ok.bin --memory 2M", "--memory: 2097152 is over 1048576 (1M), the most that the hart takes"),
        ("run ok.bin --memory 64kB", "--memory: '64kB' is not a size; write it as 65536, 0x10000, 64K or 1M"),
        ("run ok.bin --pc 12z", "--pc: '12z' is not a number; write it as 4096, 0x1000 or 0b1000"),
        ("run ok.bin --steps -5", "--steps: '-5' is not a number; write it as 4096, 0x1000 or 0b1000"),
        ("run ok.bin --steps 99999999999999999999", "--steps: 99999999999999999999 has more than 64 bits; the largest is 0xffffffffffffffff"),
        ("run ok.bin --mode Q", "--mode: 'Q' is not one of M, S, U"),
        ("run ok.bin --elp 2", "--elp: '2' is not one of 0, 1"),
        ("run ok.bin --masking 8", "--masking: '8' is not one of 0, 7, 16"),
        ("run ok.bin --follow some", "--follow: 'some' is neither a number of traps nor 'all'"),
        ("run ok.bin --expect trap", "--expect: 'trap' is no end; write ecall, ebreak, a cause below 64, exit or exit=0"),
        ("run ok.bin --expect exit=", "--expect: 'exit=' is no end; write ecall, ebreak, a cause below 64, exit or exit=0"),
        ("run ok.bin --expect exit=ok", "--expect: 'exit=ok' is no end; write ecall, ebreak, a cause below 64, exit or exit=0"),
        ("run ok.bin --expect exit=99999999999", "--expect: 'exit=99999999999' is no end; write ecall, ebreak, a cause below 64, exit or exit=0"),
        ("run ok.bin --expect exit", "--expect: nothing serves an exit of the program; add --syscalls or --semihosting"),
        ("run ok.bin --exit-status", "--exit-status: nothing serves an exit of the program; add --syscalls or --semihosting"),
        ("run ok.bin --exit-status --expect ecall --syscalls", "--exit-status: it does not go with --expect; leave one out"),
        ("run ok.bin --semihosting=on", "--semihosting: it takes no value; write it alone"),
        ("run ok.bin --strict --strict", "--strict: it is given twice; give it once"),
        ("run ok.bin --expect 64", "--expect: '64' is no end; write ecall, ebreak, a cause below 64, exit or exit=0"),
    ]);
}

#[test]
#[rustfmt::skip]
fn registers_and_csrs() {
    refused("registers", |_| (), &[
        ("run ok.bin --x a0", "--x: 'a0' has no '='; write for instance --x a0=5"),
        ("run ok.bin --x q0=1", "--x: 'q0' is no register; use names as a0, sp, ra or x10"),
        ("run ok.bin --x x32=1", "--x: 'x32' is no register; use names as a0, sp, ra or x10"),
        ("run ok.bin --x zero=1", "--x: register zero (x0) is always 0 and cannot be set"),
        ("run ok.bin --x a0=five", "--x a0: 'five' is not a number; write it as 4096, 0x1000 or 0b1000"),
        ("run ok.bin --x a0=-0x8000000000000001", "--x a0: -0x8000000000000001 is below -2^63, the least that 64 bits hold"),
        ("run ok.bin --x a0=1 --x x10=2", "--x x10: it is given twice; give it once"),
        ("run ok.bin --csr mtvec", "--csr: 'mtvec' has no '='; write for instance --csr mtvec=0x80000100"),
        ("run ok.bin --csr mtvce=4", "--csr: 'mtvce' is no CSR of this hart; did you mean mtvec?"),
        ("run ok.bin --csr sstatus=0", "--csr: sstatus is a view of mstatus; set mstatus instead"),
        ("run ok.bin --csr mepc=4 --csr mepc=8", "--csr mepc: it is given twice; give it once"),
        ("run ok.bin --csr ssp=8 --ssp 8", "--ssp: ssp is given twice, also by --csr ssp; give it once"),
        ("run ok.bin --csr cycle=1", "--csr: 'cycle' is no CSR of this hart; it has ssp stvec senvcfg sscratch sepc scause stval satp mstatus medeleg mtvec menvcfg mscratch mepc mcause mtval mseccfg"),
    ]);
}

/// What the desk can read and the hart refuses.
#[test]
#[rustfmt::skip]
fn refusals() {
    refused("refusals", |_| (), &[
        ("run ok.bin --pc 0x80000002", "--pc: 0x80000002 is not a multiple of 4; try 0x80000000 or 0x80000004 (the hart's refusal 1)"),
        ("run ok.bin --ssp 12", "--ssp: 0xc is not a multiple of 8; try 0x8 or 0x10 (the hart's refusal 1)"),
        ("run ok.bin --csr mtvec=0x80000101", "--csr mtvec: 0x80000101 sets bits that are always 0 (0x1); try 0x80000100 (the hart's refusal 1)"),
        ("run ok.bin --csr satp=0x9000000000000000", "--csr satp: 0x9000000000000000 has MODE 9; try MODE 0 (Bare, 0x0) or 8 (Sv39, 0x8000000000000000) (the hart's refusal 1)"),
        ("run ok.bin --csr satp=0x8000000000000001", "--csr satp: 0x8000000000000001 sets bits that are always 0 (0x1); try 0x8000000000000000 (the hart's refusal 1)"),
        ("run ok.bin --csr menvcfg=0x100000000", "--csr menvcfg: 0x100000000 has PMM (bits 33:32) 1; try 0, 2 or 3 there: 0x0 (the hart's refusal 1)"),
        ("run ok.bin --csr mstatus=0x1000", "--csr mstatus: 0xa00001000 has MPP (bits 12:11) 2, which is no mode; try 0xa00000000 (the hart's refusal 1)"),
        ("run ok.bin --csr mstatus=0x500000000", "--csr mstatus: 0x500000000 has UXL and SXL other than 2; try 0xa00000000 (the hart's refusal 1)"),
        ("run ok.bin --csr medeleg=0x400", "--csr medeleg: 0x400 sets bits that are always 0 (0x400); try 0x0 (the hart's refusal 1)"),
        ("run ok.bin --steps 0 --pc 2 --ssp 1", "--pc: 0x2 is not a multiple of 4; try 0x0 or 0x4; --ssp: 0x1 is not a multiple of 8; try 0x0 or 0x8 (the hart's refusal 1)"),
    ]);
}

/// A map of one line, and what is said about it behind `m.map:1: `.
#[test]
#[rustfmt::skip]
fn map_lines() {
    for (map, wrong) in [
        ("0x10000 0x80001000 rw", "'0x10000 0x80001000 rw' has no '->'; write for instance 0x10000 -> 0x80001000 rw u"),
        ("0x10000 ->", "the frame is missing; write for instance 0x10000 -> 0x80001000 rw u"),
        ("0x10000 -> 0x80001000", "the flags are missing; write for instance rw u, r-x u or shadow u"),
        ("0x10000 -> 0x80001000 rwq", "'rwq' is no flag; use letters of v r w x u g a d, !v !a !d, or shadow"),
        ("0x10000 -> 0x80001000 r !", "'!' is no flag; use letters of v r w x u g a d, !v !a !d, or shadow"),
        ("0x10000 -> 0x80001000 shadows", "'shadows' is no flag; use letters of v r w x u g a d, !v !a !d, or shadow"),
        ("0x10000 -> 0x80001000 shadow r u", "'shadow' is W alone; leave out r and x, or 'shadow'"),
        ("page -> 0x80001000 rw", "'page' is not a number; write it as 4096, 0x1000 or 0b1000"),
        ("0x10010 -> 0x80001000 rw", "virtual address 0x10010 is not a multiple of 4096; try 0x10000"),
        ("0x10000 -> 0x80001004 rw", "physical address 0x80001004 is not a multiple of 4096; try 0x80001000"),
        ("0x4000000000 -> 0x80001000 rw", "virtual address 0x4000000000 is not of Sv39; its bits 63:39 must equal bit 38"),
        ("0x10000 -> 0x100000000000000 rw", "physical address 0x100000000000000 has more than 56 bits, the most that a leaf holds"),
        ("0x10000 -> leaf", "'leaf' takes one word; write for instance 0x10000 -> leaf 0x200004d7"),
    ] {
        let prepare = |desk: &Desk| desk.file("m.map", map);
        refused("map-lines", prepare, &[("run ok.bin --map m.map", &format!("m.map:1: {wrong}"))]);
    }
}

#[test]
#[rustfmt::skip]
fn maps() {
    let pages = |count: u64| -> String {
        (0..count).map(|page| format!("{:#x} -> 0x80000000 rwx u\n", page * 4096)).collect()
    };
    let prepare = |desk: &Desk| {
        desk.file("twice.map", "0x2000 -> 0x80000000 r\n# between\n0x2000 -> 0x80001000 r\n");
        desk.file("many.map", pages(65));
        desk.file("most.map", pages(64));
        desk.file("binary.map", [0xff, 0xfe]);
        assert_eq!(desk.run("run ok.bin --map most.map --expect ecall").status, 0, "64 are accepted");
    };
    refused("maps", prepare, &[
        ("run ok.bin --map none.map", "none.map: there is no such file; check the path"),
        ("run ok.bin --map binary.map", "binary.map: it is no text (not UTF-8); give a text file"),
        ("run ok.bin --map twice.map", "twice.map:3: page 0x2000 stands already in line 1; give each page once"),
        ("run ok.bin --map many.map", "many.map:65: the map has 65 pages, and the hart takes at most 64; this line is the first over it"),
    ]);
}

#[test]
#[rustfmt::skip]
fn frames() {
    let prepare = |desk: &Desk| {
        desk.file("wrong.map", "0x10000 -> 0x80001000 rw u\n0x11000 -> 0x80001000 rwq\n");
        desk.file("binary.map", [0xff, 0xfe]);
    };
    refused("frames", prepare, &[
        ("frames", "frames: --map FILE is missing; write desk frames --map FILE [options]"),
        ("frames --memory 64K", "frames: --map FILE is missing; write desk frames --map FILE [options]"),
        ("frames user.map", "frames: 'user.map' is not needed; write desk frames --map FILE [options]"),
        ("frames ok.bin --map user.map", "frames: 'ok.bin' is not needed; write desk frames --map FILE [options]"),
        ("frames --map", "--map: its FILE is missing; write --map FILE"),
        ("frames --map none.map", "none.map: there is no such file; check the path"),
        ("frames --map binary.map", "binary.map: it is no text (not UTF-8); give a text file"),
        ("frames --map wrong.map", "wrong.map:2: 'rwq' is no flag; use letters of v r w x u g a d, !v !a !d, or shadow"),
        ("frames --map user.map --map user.map", "--map: it is given twice; give it once"),
        ("frames --map user.map --memory 5000", "--memory: 5000 is not a multiple of 4096; try 4096 or 8192"),
        ("frames --map user.map --memory 2M", "--memory: 2097152 is over 1048576 (1M), the most that the hart takes"),
        ("frames --map user.map --shadow-stak", "--shadow-stak: 'desk frames' has no such option; did you mean --shadow-stack?"),
        ("frames --map user.map --json=1", "--json: it takes no value; write it alone"),
        ("frames --map user.map --mode U", "--mode: 'desk frames' has no such option; 'desk help frames' lists them"),
        ("frame --map user.map", "frame: the desk has no such command; did you mean frames?"),
        ("run ok.bin --frames", "--frames: it tells what the map's entries name, and no map is given; add --map FILE"),
        ("run ok.bin --frames --sv39 --mode U --json", "--frames: it tells what the map's entries name, and no map is given; add --map FILE"),
        ("run ok.bin --map user.map --frames=1", "--frames: it takes no value; write it alone"),
    ]);
}

/// A line of a text in Intel HEX, between an upper address and the end record, and what is said about it.
#[test]
#[rustfmt::skip]
fn hex_lines() {
    let long = format!(":ff000000{}00", "00".repeat(255));
    for (line, wrong) in [
        (":0100000009F7", "the checksum is F7 and F6 would be right: ':0100000009F7'"),
        (":020000021200EA", "type 02 (extended segment address) is not read, only 00, 01, 04 and 05: ':020000021200EA'"),
        (":0410000001020304E2", "it puts 4 data bytes at 0x80001000 to 0x80001003, outside memory, which is 0x80000000 to 0x80000fff; try --memory 8192 or more: ':0410000001020304E2'"),
        (":020FFF000102ED", "it puts 2 data bytes at 0x80000fff to 0x80001000, outside memory, which is 0x80000000 to 0x80000fff; try --memory 8192 or more: ':020FFF000102ED'"),
        (":02000004FFFFFC\n:01FFFF0009F8", "it puts 1 data byte at 0xffffffff, outside memory, which is 0x80000000 to 0x80000fff: ':01FFFF0009F8'"),
        (":02000000AB", "it says 2 data bytes and has 0: ':02000000AB'"),
        (":030000048000007A", "the checksum is 7A and 79 would be right: ':030000048000007A'"),
        (":0300000480000079", "it has 3 data bytes, and type 04 takes 2: ':0300000480000079'"),
        (":0200010480007 9", "' ' in column 15 is no hex digit: ':0200010480007 9'"),
        (":02000104800079", "its offset is 0001, and type 04 takes 0000: ':02000104800079'"),
        ("", "the line is empty; a line is a colon and hex pairs"),
        ("S1130000", "it begins with 'S' and not with a colon: 'S1130000'"),
        (":00000001FF\r:00000001FF", "it has a CR in column 12 that no LF follows: ':00000001FF\\r:00000001FF'"),
        (":0\u{1b}[31m\u{e4}", "'\\x1b' in column 3 is no hex digit: ':0\\x1b[31m\\xc3\\xa4'"),
        (long.as_str(), "the checksum is 00 and 01 would be right: ':ff00000000000000000000000000000000000000000[465 more]000000000000'"),
    ] {
        let lines = format!(":0200000480007A\n{line}\n:00000001FF\n");
        let number = 1 + line.matches('\n').count() + 1;
        let prepare = |desk: &Desk| desk.file("p.hex", &lines);
        refused("hex-lines", prepare, &[("run p.hex --memory 4K", &format!("p.hex:{number}: {wrong} (the loader's refusal 6)"))]);
    }
}

#[test]
#[rustfmt::skip]
fn hex_files() {
    let prepare = |desk: &Desk| {
        desk.file("empty", "");
        desk.file("open.hex", ":0200000480007A\r\n");
        desk.file("after.hex", ":00000001FF\n:00000001FF\n");
        desk.file("line.hex", ":00000001FF\n\n");
        desk.file("early.hex", ":0100000009F6\n:00000001FF\n");
        desk.file("guess.hex", ":13 and so on");
        desk.file("good.hex", ":00000001FF");
        desk.file("start.hex", ":040000058000000275\n:00000001FF");
        // As long as no text may be, without the bytes on the disk.
        desk.file("huge.hex", ":00");
        let huge = std::fs::OpenOptions::new().write(true).open(desk.folder.join("huge.hex")).unwrap();
        huge.set_len((1 << 26) + 1).unwrap();
    };
    refused("hex-files", prepare, &[
        ("run empty --format hex", "empty:1: the end record is missing; the last line must be :00000001FF (the loader's refusal 6)"),
        ("run open.hex", "open.hex:2: the end record is missing; the last line must be :00000001FF (the loader's refusal 6)"),
        ("run after.hex", "after.hex:2: it follows the end record of line 1, and nothing may: ':00000001FF' (the loader's refusal 6)"),
        ("run line.hex", "line.hex:2: it follows the end record of line 1, and nothing may (the loader's refusal 6)"),
        ("run early.hex", "early.hex:1: it puts 1 data byte at 0x0, outside memory, which is 0x80000000 to 0x800fffff; no type 04 stands before it: ':0100000009F6' (the loader's refusal 6)"),
        ("run guess.hex", "guess.hex:1: ' ' in column 4 is no hex digit: ':13 and so on'; a raw image needs --format raw (the loader's refusal 6)"),
        ("run guess.hex --format hex", "guess.hex:1: ' ' in column 4 is no hex digit: ':13 and so on' (the loader's refusal 6)"),
        ("run ok.bin --format hex", "ok.bin:1: it begins with 's' and not with a colon: 's\\x00\\x00\\x00' (the loader's refusal 6)"),
        ("run huge.hex", "huge.hex: the text has more than 67108864 bytes (64M); leave out what is stored twice"),
        ("run ok.bin --format coff", "--format: 'coff' is not one of raw, hex, elf"),
        ("run ok.bin --pc start", "--pc: 'start' is the start address of an Intel HEX or ELF file, and ok.bin is a raw image; give an address"),
        ("run good.hex --pc start", "--pc: 'start' is the file's start address, and good.hex gives none (no type 05 record); give an address"),
        ("run start.hex --pc start", "--pc: 0x80000002 is not a multiple of 4; try 0x80000000 or 0x80000004 (the hart's refusal 1)"),
        ("run good.hex --pc begin", "--pc: 'begin' is not a number; write it as 4096, 0x1000 or 0b1000"),
        ("run good.hex --save good.hex", "--save: 'good.hex' is the image, which would be lost; give another file"),
    ]);
}

/// Nothing is printed or written where something is wrong, and the image is never lost.
#[test]
#[rustfmt::skip]
fn hex_written() {
    let prepare = |desk: &Desk| {
        desk.file("good.hex", ":00000001FF");
        desk.file("empty.bin", "");
        desk.file("huge.bin", vec![0; 1_048_577]);
    };
    refused("hex-written", prepare, &[
        ("hex", "hex: the image is missing; write desk hex IMAGE [options]"),
        ("hex ok.bin user.map", "hex: 'user.map' is not needed; write desk hex IMAGE [options]"),
        ("hex none.bin", "none.bin: there is no such file; check the path"),
        ("hex empty.bin", "empty.bin: the image is empty; give a file with at least one instruction"),
        ("hex huge.bin", "huge.bin: the image has more than 1048576 bytes (1M), the largest memory"),
        ("hex good.hex", "good.hex: it is Intel HEX; give a raw image"),
        ("hex ok.bin -o", "-o: its FILE is missing; write -o FILE"),
        ("hex ok.bin -o ok.bin", "-o: 'ok.bin' is the image, which would be lost; give another file"),
        ("hex ok.bin -o no/new.hex", "-o: 'no/new.hex' cannot be written (No such file or directory (os error 2)); give a file in a folder where you may write"),
        ("hex ok.bin -o new.hex --length 0", "--length: 0 is not a length of a line's data; try 1 to 255, for instance 32"),
        ("hex ok.bin -o new.hex --length 256", "--length: 256 is not a length of a line's data; try 1 to 255, for instance 32"),
        ("hex ok.bin -o new.hex --length many", "--length: 'many' is not a number; write it as 4096, 0x1000 or 0b1000"),
        ("hex ok.bin -o new.hex --at 0x100000000", "--at: 0x100000000 has more than 32 bits, the most that Intel HEX can say"),
        ("hex ok.bin -o new.hex --at 0xfffffffd", "--at: 4 bytes from 0xfffffffd on go past 0xffffffff, the last address of Intel HEX; try 0xfffffffc or less"),
        ("hex ok.bin -o new.hex --start 0x100000000", "--start: 0x100000000 has more than 32 bits, the most that Intel HEX can say"),
        ("hex ok.bin --lenght 8", "--lenght: 'desk hex' has no such option; did you mean --length?"),
        ("hxe ok.bin", "hxe: the desk has no such command; the commands are run, frames, demo, disasm, asm, hex and help"),
    ]);
    let desk = Desk::new("hex-written-kept");
    desk.image("ok.bin", &[ECALL]);
    desk.run("hex ok.bin -o new.hex --length 0");
    desk.run("hex none.bin -o new.hex");
    desk.run("hex ok.bin -o ok.bin");
    assert!(!desk.folder.join("new.hex").exists());
    assert_eq!(std::fs::read(desk.folder.join("ok.bin")).unwrap(), ECALL.to_le_bytes());
}

#[test]
#[rustfmt::skip]
fn disasm() {
    refused("disasm", |_| (), &[
        ("disasm", "disasm: nothing is given; write desk disasm 0x00a00513 or --image FILE"),
        ("disasm 0x100000000", "disasm: 0x100000000 has more than 32 bits; a word is at most 0xffffffff"),
        ("disasm addi", "disasm: 'addi' is not a number; write it as 4096, 0x1000 or 0b1000"),
        ("disasm --at 0x80000002 0x13", "--at: 0x80000002 is not a multiple of 4; try 0x80000000"),
        ("disasm --image ok.bin 0x13", "--image: the word 0x13 is given too; give words or an image"),
        ("disasm --words 1 0x13", "--words: it goes with --image; leave it out"),
        ("disasm --image none.bin", "none.bin: there is no such file; check the path"),
        ("disasm --imgae ok.bin", "--imgae: 'desk disasm' has no such option; did you mean --image?"),
    ]);
}

#[cfg(unix)]
#[test]
fn an_argument_that_is_no_text() {
    use std::os::unix::ffi::OsStrExt;
    let desk = Desk::new("no-text");
    let mut command = desk.command(&["run"]);
    let output = command
        .arg(std::ffi::OsStr::from_bytes(b"\xff.bin"))
        .output()
        .unwrap();
    assert_eq!(output.status.code(), Some(2));
    let line = String::from_utf8(output.stderr).unwrap();
    assert_eq!(
        line,
        "desk: \u{fffd}.bin: this argument is no text (not UTF-8); rename the file\n"
    );
}
