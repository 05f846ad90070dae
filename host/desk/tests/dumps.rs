//! `--dump` by physical address, by the program's own address and by symbol, with pages that are not there.

mod common;

use common::elf::*;
use common::json::Value;
use common::*;

/// A user program of one call with a table of data, and the map that goes with it: code, data, a page far away from it in memory, a
/// page of S, and the shadow stack.
fn prepared(test: &str) -> Desk {
    let desk = Desk::new(test);
    let mut elf = program(&[SSPUSH_RA, ECALL]);
    elf.loads[0].address = 0x10000;
    elf.entry = 0x10000;
    elf.loads.push(load(
        0x20000,
        0x8000_1000,
        "rw",
        &[7, 8, 0x6c6c_6548, 0x216f],
    ));
    elf.symbols = vec![
        Symbol("main", 0x10000, 8, FUNCTION),
        Symbol("table", 0x20000, 8, OBJECT),
    ];
    desk.file("p.elf", elf.bytes());
    desk.file(
        "wide.map",
        "0x21000 -> 0x80003000 rw u\n0x23000 -> 0x80000000 rw\n".to_string() + MAP,
    );
    desk
}

const OPTIONS: &str = "--memory 16K --map wide.map --mode U --sv39 --shadow-stack --ssp 0x31000 --x ra=0x10010 --expect ecall";

fn dumped(desk: &Desk, dumps: &str) -> String {
    let outcome = desk.run(&format!("run p.elf {OPTIONS} {dumps}"));
    assert_eq!((outcome.status, outcome.err.as_str()), (0, ""), "{dumps}");
    let (_, dump) = outcome.out.split_once("\n\n").expect("a dump");
    dump.into()
}

/// The run ended by a trap to M; the addresses are those of the program.
#[test]
fn by_symbol_and_by_the_programs_address() {
    let desk = prepared("dumps-names");
    let expected = "\
0x20000 <table+0x0>, physical 0x80001000:
0x20000  07 00 00 00 08 00 00 00 48 65 6c 6c 6f 21 00 00  |........Hello!..|

0x20008, physical 0x80001008:
0x20008  48 65 6c 6c                                      |Hell|

0x30ff8, physical 0x80002ff8:
0x30ff8  10 00 01 00 00 00 00 00                          |........|

0x80001008  48 65                                            |He|
";
    let dumps = "--dump table:16 --dump table+8:4 --dump v:0x30ff8:8 --dump 0x80001008:2";
    assert_eq!(dumped(&desk, dumps), expected);
}

/// Pages that follow each other in the program and not in memory, and some that no load finds; what is there is shown.
#[test]
fn a_page_that_is_missing_is_told_and_the_rest_is_shown() {
    let desk = prepared("dumps-missing");
    let expected = "\
0x20ffe, physical 0x80001ffe:
0x20ffe  00 00                                            |..|
0x21000, physical 0x80003000:
0x21000  00 00                                            |..|

0x1fffe to 0x1ffff: a load in U is refused by rule 5: no entry of the map has page 0x1f000
0x20000 <table+0x0>, physical 0x80001000:
0x20000  07 00                                            |..|

0x23000 to 0x23000: a load in U is refused by rule 6: U mode needs the U bit, and the entry has it not
";
    let dumps = "--dump v:0x20ffe:4 --dump v:0x1fffe:4 --dump v:0x23000:1";
    assert_eq!(dumped(&desk, dumps), expected);
}

/// Where the hart does not translate, a symbol is where its segment was put, and a stretch over two pages is one.
#[test]
fn in_m_addresses_are_physical() {
    let desk = prepared("dumps-m");
    let run = "run p.elf --memory 16K --pc 0x80000004 --expect ecall";
    let outcome = desk.run(&format!(
        "{run} --dump table:4 --dump v:0x80000ffe:4 --dump v:0x20000:4"
    ));
    assert_eq!((outcome.status, outcome.err.as_str()), (0, ""));
    let expected = "
0x80001000 <table+0x0>, physical 0x80001000:
0x80001000  07 00 00 00                                      |....|

0x80000ffe, physical 0x80000ffe:
0x80000ffe  00 00 07 00                                      |....|

0x20000 to 0x20003: a load in M is refused by rule 9: physical 0x20000 lies outside memory (0x80000000 to 0x80003fff)
";
    assert!(outcome.out.ends_with(expected), "{}", outcome.out);
}

/// A page that a load of this mode may not read is no page to show; M's own view of memory is the physical one.
#[test]
fn as_an_object() {
    let desk = prepared("dumps-object");
    let end = desk.object(&format!(
        "run p.elf {OPTIONS} --json --dump v:0x1fffe:4 --dump 0x80001000:1"
    ));
    let dumps = end.at("dump").list();
    assert_eq!(dumps.len(), 3);
    let asked: Vec<&str> = dumps.iter().map(|dump| dump.at("asked").text()).collect();
    assert_eq!(asked, ["v:0x1fffe:4", "v:0x1fffe:4", "0x80001000:1"]);
    let (missing, there, plain) = (&dumps[0], &dumps[1], &dumps[2]);
    assert_eq!(
        (missing.at("address").hex(), missing.at("length").number()),
        (0x1fffe, 2)
    );
    assert_eq!(
        (missing.at("bytes"), missing.at("physical")),
        (&Value::Null, &Value::Null)
    );
    assert!(missing.at("refused").text().contains("page 0x1f000"));
    assert_eq!(
        (there.at("address").hex(), there.at("physical").hex()),
        (0x20000, 0x8000_1000)
    );
    assert_eq!(
        (there.at("bytes").text(), there.at("refused")),
        ("0700", &Value::Null)
    );
    assert_eq!(
        (plain.at("address").hex(), plain.at("bytes").text()),
        (0x8000_1000, "07")
    );
}

#[test]
#[rustfmt::skip]
fn what_cannot_be_shown_is_refused() {
    let prepare = |desk: &Desk| {
        let mut elf = program(&[ECALL]);
        elf.symbols = vec![Symbol("main", 0x8000_0000, 4, FUNCTION)];
        desk.file("p.elf", elf.bytes());
    };
    refused("dumps-wrong", prepare, &[
        ("run ok.bin --dump 0x80000000", "--dump: '0x80000000' has no length; write for instance 0x80001000:64, v:0x20000:64 or table:64"),
        ("run ok.bin --dump v:0x80000000", "--dump: 'v:0x80000000' has no length; write for instance 0x80001000:64, v:0x20000:64 or table:64"),
        ("run ok.bin --dump table", "--dump: 'table' has no length; write for instance 0x80001000:64, v:0x20000:64 or table:64"),
        ("run ok.bin --dump x:4", "--dump: 'x' is no number, and there are no symbols; give an ELF file, or --symbols FILE.elf"),
        ("run p.elf --dump mian:4", "--dump: there is no symbol 'mian'; did you mean main?"),
        ("run p.elf --dump main+x:4", "--dump: 'x' is not a number; write it as 4096, 0x1000 or 0b1000"),
        ("run p.elf --dump main:", "--dump: '' is not a size; write it as 65536, 0x10000, 64K or 1M"),
        ("run p.elf --dump main:0", "--dump: 'main:0' has length 0; try 1 or more"),
        ("run p.elf --dump v:main:4", "--dump: 'main' is not a number; write it as 4096, 0x1000 or 0b1000"),
        ("run p.elf --memory 4K --dump v:0:4097", "--dump: v:0:4097 is more than memory has; show 4096 bytes or less"),
        ("run p.elf --dump v:0xffffffffffffffff:2", "--dump: v:0xffffffffffffffff:2 goes past the last address; show less"),
        ("run p.elf --dump main+0xffffffff7fffffff:2", "--dump: main+0xffffffff7fffffff:2 goes past the last address; show less"),
        ("run ok.bin --dump 0x80000000:0", "--dump: '0x80000000:0' has length 0; try 1 or more"),
        ("run ok.bin --memory 4K --dump 0x80000ff0:17", "--dump: 0x80000ff0:17 is not all in memory, which is 0x80000000 to 0x80000fff; an address of the program is v:ADDRESS"),
        ("run ok.bin --dump 0x7fffffff:1", "--dump: 0x7fffffff:1 is not all in memory, which is 0x80000000 to 0x800fffff; an address of the program is v:ADDRESS"),
    ]);
}
