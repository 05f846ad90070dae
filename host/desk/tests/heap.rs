//! The system call brk: where a program's break can go, and what is there.

mod common;

use common::calls::*;
use common::json::Reader;
use common::*;

/// brk(a0) in M, in a program whose data end at 0x80001100 and whose memory ends at 0x80004000: what it answers.
fn set_break(wanted: &str, options: &str, symbols: Vec<elf::Symbol>) -> u64 {
    let name: String = format!("{wanted}{options}")
        .chars()
        .filter(char::is_ascii_alphanumeric)
        .collect();
    let desk = Desk::new(&format!("brk-{name}-{}", symbols.len()));
    let mut program = elf::program(&[ECALL, EBREAK]);
    let mut data = elf::load(0x8000_1000, 0x8000_1000, "rw", &[1, 2, 3]);
    data.length = 0x100;
    program.loads.push(data);
    program.symbols = symbols;
    desk.file("p.elf", program.bytes());
    let registers = format!("--x a7=214 --x a0={wanted}");
    let outcome = desk.run(&format!(
        "run p.elf --memory 16K --syscalls {registers} {options} --json"
    ));
    a0(&Reader::whole(&outcome.out))
}

#[test]
fn the_break_begins_behind_the_data_and_stays_in_memory() {
    let first = 0x8000_1100;
    assert_eq!(set_break("0", "", vec![]), first);
    assert_eq!(set_break("0x80001800", "", vec![]), 0x8000_1800);
    assert_eq!(
        set_break("0x80004000", "", vec![]),
        0x8000_4000,
        "up to the end of memory"
    );
    assert_eq!(set_break("0x80004001", "", vec![]), first, "and no further");
    assert_eq!(set_break("-1", "", vec![]), first);
    assert_eq!(
        set_break("0x800010ff", "", vec![]),
        first,
        "not into the data"
    );
    assert_eq!(
        set_break("0x80003001", "--x sp=0x80003000", vec![]),
        first,
        "not over the stack"
    );
    assert_eq!(
        set_break("0x80003000", "--x sp=0x80003000", vec![]),
        0x8000_3000
    );
    let end = vec![elf::Symbol("_end", 0x8000_1080, 0, elf::LABEL)];
    assert_eq!(
        set_break("0", "", end),
        0x8000_1080,
        "where the linker says"
    );
}

/// Under Sv39 the break can go as far as there are pages to write; what is new is 0.
#[test]
fn the_break_in_user_mode() {
    let desk = Desk::new("brk-user");
    let words = [
        ECALL,
        0x0000_0513, // li a0,0
        ECALL,
        EBREAK,
    ];
    let mut program = elf::program(&words);
    (program.entry, program.loads[0].address) = (0x10000, 0x10000);
    program
        .loads
        .push(elf::load(0x20000, 0x8000_1000, "rw", &[u32::MAX; 1024]));
    program.symbols = vec![elf::Symbol("_end", 0x20ff8, 0, elf::LABEL)];
    desk.file("p.elf", program.bytes());
    desk.file("apart.map", APART);
    let run = |wanted: &str| {
        let options = "--memory 16K --map apart.map --mode U --sv39 --syscalls --x a7=214";
        let outcome = desk.run(&format!(
            "run p.elf {options} --x a0={wanted} --json --dump 0x80001ff0:16"
        ));
        let object = Reader::whole(&outcome.out);
        (a0(&object), dump(&object, 0).to_string())
    };
    let kept = "ff".repeat(16);
    assert_eq!(run("0x22000"), (0x22000, "ff".repeat(8) + &"00".repeat(8)));
    assert_eq!(
        run("0x22001"),
        (0x20ff8, kept.clone()),
        "no page there, and nothing is changed"
    );
    assert_eq!(run("0x20ff8"), (0x20ff8, kept));
}

/// A raw image does not say where its data end.
#[test]
fn without_an_end_there_is_no_break() {
    let (_, object) = call(b"", "", "a7=214 a0=0");
    assert_eq!(a0(&object), ENOSYS);
    let unserved = &object.at("calls").at("unserved").list()[0];
    assert_eq!(unserved.at("call").text(), "system call 214 brk");
}

/// A heap that goes up and down by many pages, over and over: more bytes than the desk keeps in mind before it takes a new copy.
#[test]
fn a_heap_that_goes_up_and_down() {
    let desk = Desk::new("up-and-down");
    let words = [
        0x0004_8513, // mv a0,s1
        ECALL,
        0x0009_0513, // mv a0,s2
        ECALL,
        0xfff4_0413, // addi s0,s0,-1
        0xfe04_16e3, // bnez s0,.-20
        0x0009_3503, // ld a0,0(s2)
        0x0005_3503, // ld a0,0(a0)
    ];
    let mut program = elf::program(&words);
    program
        .loads
        .push(elf::load(0x8000_1000, 0x8000_1000, "rw", &[7, 0]));
    desk.file("p.elf", program.bytes());
    let options =
        "--memory 64K --syscalls --x a7=214 --x s0=50 --x s1=0x8000f000 --x s2=0x80001008";
    let outcome = desk.run(&format!("run p.elf {options}"));
    assert!(
        outcome
            .out
            .starts_with("Stopped by a trap in step 302: cause 5"),
        "{}",
        outcome.out
    );
    assert!(
        outcome.out.contains("load of 8 bytes at 0x0"),
        "{}",
        outcome.out
    );
    assert!(
        outcome.out.contains("calls     100 served"),
        "{}",
        outcome.out
    );
}
