//! Names of addresses: symbols and lines of source in traces, reports and objects, and the call stack that the shadow stack has.

mod common;

use common::elf::*;
use common::json::{Reader, Value};
use common::*;

const RET: u32 = 0x0000_8067;
const JAL_16: u32 = 0x0100_00ef; // jal .+16

/// main calls check, which calls unlock; unlock changes its return address before its pop-check.
#[rustfmt::skip]
fn unlock() -> Elf {
    let words = [
        SSPUSH_RA, JAL_16, NOP, ECALL, // 0x10000 main
        NOP, // 0x10010, which no symbol has
        SSPUSH_RA, JAL_16, NOP, RET, NOP, // 0x10014 check
        SSPUSH_RA, 0x00c0_8093, SSPOPCHK_RA, RET, // 0x10028 unlock: .., addi ra,ra,12, ..
    ];
    let mut elf = program(&words);
    elf.loads[0].address = 0x10000;
    elf.entry = 0x10000;
    elf.loads.push(load(0x20000, 0x8000_1000, "rw", &[7, 8, 9, 10]));
    elf.symbols = vec![
        Symbol("main", 0x10000, 16, FUNCTION),
        Symbol("check", 0x10014, 20, FUNCTION),
        Symbol("again", 0x10018, 0, LABEL),
        Symbol("$x", 0x10028, 0, LABEL),
        Symbol(".L5", 0x10028, 0, LABEL),
        Symbol("unlock", 0x10028, 16, FUNCTION),
        Symbol("table", 0x20000, 8, OBJECT),
    ];
    elf.lines = vec![
        (0x10000, 3), (0x10008, 4), (0x10014, 10), (0x10018, 11), (0x10028, 20), (0x10030, 21), (0x10038, 0),
    ];
    elf
}

const OPTIONS: &str =
    "--memory 16K --map user.map --mode U --sv39 --shadow-stack --ssp 0x31000 --x ra=0x10010";

#[test]
fn a_mismatch_is_told_by_name() {
    let desk = Desk::new("names-mismatch");
    desk.file("p.elf", unlock().bytes());
    let outcome = desk.run(&format!("run p.elf {OPTIONS}"));
    assert_eq!((outcome.status, outcome.err.as_str()), (3, ""));
    assert_eq!(
        outcome.out,
        "Stopped by a trap in step 7: cause 18 (software check), tval 0x3, from U to M.
  at        0x10030 <unlock+0x8> unlock.c:21 in U: cdc0c073  sspopchk ra
  why       shadow stack mismatch: the return address is not the one that was pushed
  used      0x10028 <unlock+0x0> unlock.c:20 (in ra: the return would go there)
  pushed    0x1001c <check+0x8> unlock.c:11 (on the shadow stack)
  lies at   virtual 0x30fe8 (ssp), physical 0x80002fe8
  callers   0x10008 <main+0x8> unlock.c:3
            0x10010 <main+0x10> unlock.c:4
  entry     0x30000 -> 0x80002000 v-w-u-ad (line 2 of the map)
  handler   0x0 in M: no word can be fetched there
  start     0x10000, as p.elf gives it; the hart began there
"
    );
}

#[test]
fn a_mismatch_as_an_object() {
    let desk = Desk::new("names-object");
    desk.file("p.elf", unlock().bytes());
    let end = Reader::whole(&desk.run(&format!("run p.elf {OPTIONS} --json")).out);
    let trap = end.at("trap");
    assert_eq!(trap.at("symbol").text(), "unlock+0x8");
    assert_eq!(trap.at("source").text(), "unlock.c:21");
    let facts = trap.at("facts");
    assert_eq!(facts.at("used_at").at("symbol").text(), "unlock+0x0");
    let stack = facts.at("call_stack").list();
    let frame = |at: &Value| (at.at("at").hex(), at.at("returns_to").hex());
    let frames: Vec<_> = stack.iter().map(frame).collect();
    let expected = [(0x30fe8, 0x1001c), (0x30ff0, 0x10008), (0x30ff8, 0x10010)];
    assert_eq!(frames, expected);
    let calls: Vec<_> = stack.iter().map(|at| at.at("symbol").text()).collect();
    assert_eq!(calls, ["check+0x4", "main+0x4", "main+0xc"]);
    assert_eq!(stack[0].at("source").text(), "unlock.c:11");
    // Where the hart went on nothing is named.
    let place = (end.at("symbol"), end.at("source"));
    assert_eq!(place, (&Value::Null, &Value::Null));
}

/// A line stands in the trace where another function or another line of source begins.
#[test]
fn a_trace_says_where_it_is() {
    let desk = Desk::new("names-trace");
    desk.file("p.elf", unlock().bytes());
    let outcome = desk.run(&format!("run p.elf {OPTIONS} --trace --steps 6"));
    let (trace, _) = outcome.out.split_once("The program had not ended").unwrap();
    assert_eq!(
        trace,
        "0x10000 <main+0x0> unlock.c:3
      1 U 0x0000000000010000 ce104073  sspush ra                    ssp=0x30ff8
                                                                    mem8[0x80002ff8]=0x10010
      2 U 0x0000000000010004 010000ef  jal 0x10014                  pc=0x10014 <check+0x0>
                                                                    ra=0x10008
0x10014 <check+0x0> unlock.c:10
      3 U 0x0000000000010014 ce104073  sspush ra                    ssp=0x30ff0
                                                                    mem8[0x80002ff0]=0x10008
0x10018 <check+0x4> unlock.c:11
      4 U 0x0000000000010018 010000ef  jal 0x10028                  pc=0x10028 <unlock+0x0>
                                                                    ra=0x1001c
0x10028 <unlock+0x0> unlock.c:20
      5 U 0x0000000000010028 ce104073  sspush ra                    ssp=0x30fe8
                                                                    mem8[0x80002fe8]=0x1001c
      6 U 0x000000000001002c 00c08093  addi ra,ra,12                ra=0x10028
"
    );
}

/// A refused access is named by the data that it went to; behind the end of a symbol there is no name.
#[test]
fn data_is_named() {
    let desk = Desk::new("names-data");
    let mut elf = unlock();
    elf.loads[0].bytes[..4].copy_from_slice(&SD_A0_A1.to_le_bytes());
    desk.file("p.elf", elf.bytes());
    let map = "0x10000 -> 0x80000000 rx u\n0x20000 -> 0x80001000 r u\n";
    desk.file("read.map", map);
    let options = OPTIONS.replace("user.map", "read.map");
    for (address, shown, symbol) in [
        ("0x20000", "0x20000 <table+0x0>", Some("table+0x0")),
        ("0x20008", "0x20008", None),
        ("0x10010", "0x10010", None),
        ("0x10018", "0x10018 <check+0x4>", Some("check+0x4")),
    ] {
        let run = |json: &str| desk.run(&format!("run p.elf {options} --x a1={address} {json}"));
        let row = format!("  access    store of 8 bytes at {shown}\n");
        let text = run("").out;
        assert!(text.contains(&row), "{address}: {text}");
        let end = Reader::whole(&run("--json").out);
        let symbol = symbol.map_or(Value::Null, |symbol| Value::Text(symbol.into()));
        let facts = end.at("trap").at("facts");
        assert_eq!(*facts.at("symbol"), symbol, "{address}");
    }
}

/// In M an address is physical, and is named by the segment that lies there.
#[test]
fn physical_addresses_are_named_by_their_segment() {
    let desk = Desk::new("names-physical");
    desk.file("p.elf", unlock().bytes());
    let outcome = desk.run("run p.elf --memory 16K --pc 0x80000014 --steps 1");
    let row = "  next      0x80000018 <check+0x4> unlock.c:11 in M: 010000ef  jal 0x80000028\n";
    assert!(outcome.out.contains(row), "{}", outcome.out);
    // What is an address of the program is none of memory.
    let outcome = desk.run("run p.elf --memory 16K --steps 1");
    let row = "  at        0x10000 in M: no word";
    assert!(outcome.out.contains(row), "{}", outcome.out);
}

/// `--symbols` names what a raw image or a text in Intel HEX does not.
#[test]
fn symbols_of_another_file() {
    let desk = Desk::new("names-beside");
    let elf = unlock();
    desk.file("p.elf", elf.bytes());
    desk.file("p.bin", &elf.loads[0].bytes);
    assert_eq!(desk.run("hex p.bin -o p.hex").status, 0);
    let row = "  start     0x10000, as p.elf gives it; the hart began there\n";
    let own = desk.run(&format!("run p.elf {OPTIONS} --trace")).out;
    for image in ["p.bin", "p.hex"] {
        let options = format!("--pc 0x10000 {OPTIONS} --trace");
        let beside = desk.run(&format!("run {image} --symbols p.elf {options}"));
        assert_eq!(beside.out, own.replace(row, ""), "{image}");
        let without = desk.run(&format!("run {image} {options}"));
        assert!(!without.out.contains('<'), "{image}: {}", without.out);
    }
}

/// An assembler's labels have no size: each names what stands behind it, up to the next one.
#[test]
fn labels_name_what_follows_them() {
    let desk = Desk::new("names-labels");
    let mut elf = program(&[NOP, NOP, NOP, NOP, ECALL]);
    elf.symbols = vec![
        Symbol("_start", 0x8000_0000, 0, LABEL | 0x10),
        Symbol("loop", 0x8000_0008, 0, LABEL),
        Symbol("alias", 0x8000_0008, 0, LABEL),
    ];
    desk.file("p.elf", elf.bytes());
    for (steps, shown) in [
        (1, "0x80000004 <_start+0x4>"),
        (2, "0x80000008 <alias+0x0>"),
        (4, "0x80000010 <alias+0x8>"),
    ] {
        let outcome = desk.run(&format!("run p.elf --steps {steps}"));
        let row = format!("  next      {shown} in M: ");
        assert!(outcome.out.contains(&row), "{}", outcome.out);
    }
}

/// Lines that cannot be read are no reason to show wrong ones.
#[test]
fn broken_lines_are_refused() {
    let mut file = unlock().bytes();
    let at = file
        .windows(9)
        .position(|part| part == b"unlock.c\0")
        .unwrap();
    // The version of the unit, which stands before its name.
    file[at - 8] = 99;
    let prepare = |desk: &Desk| desk.file("p.elf", &file);
    refused("names-broken", prepare, &[("run p.elf", "p.elf: its DWARF lines cannot be read (Found an unknown DWARF version); take them out with objcopy --strip-debug")]);
}
