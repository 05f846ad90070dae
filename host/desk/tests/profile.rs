//! `--profile`: steps by function and by the calls that led there, with symbols and without, and the picture of them.

mod common;

use common::elf::*;
use common::json::Value;
use common::*;
use std::fs;

const RET: u32 = 0x0000_8067;
const MRET: u32 = 0x3020_0073;

/// `jal ra,offset`, or `j offset` with `link` 0.
fn jal(link: u32, offset: i32) -> u32 {
    let offset = offset as u32;
    let high = (offset >> 20 & 1) << 31 | (offset >> 1 & 0x3ff) << 21;
    high | (offset >> 11 & 1) << 20 | (offset >> 12 & 0xff) << 12 | link << 7 | 0x6f
}

/// main calls first and then second; first ends with a tail call of second. ra is kept in s0 by hand.
fn tail() -> Elf {
    let words = [
        jal(1, 12), // 0 main: call first
        jal(1, 16), // 4 call second
        ECALL,      // 8
        NOP,        // 12 first
        jal(0, 4),  // 16 j second
        NOP,        // 20 second
        NOP,        // 24
        RET,        // 28
    ];
    let mut elf = program(&words);
    elf.symbols = vec![
        Symbol("main", 0x8000_0000, 12, FUNCTION),
        Symbol("first", 0x8000_000c, 8, FUNCTION),
        Symbol("second", 0x8000_0014, 12, FUNCTION),
    ];
    elf
}

/// Function (its name or address), steps of its own, all steps, how often entered.
type Row = (String, u64, u64, u64);

fn rows(object: &Value) -> Vec<Row> {
    let row = |row: &Value| {
        let name = match row.at("function") {
            Value::Null => format!("{:#x}", row.at("address").hex()),
            name => name.text().to_string(),
        };
        let number = |key: &str| row.at(key).number();
        (name, number("own"), number("all"), number("entered"))
    };
    let rows = object.at("profile").at("functions").list();
    rows.iter().map(row).collect()
}

fn row(name: &str, own: u64, all: u64, entered: u64) -> Row {
    (name.into(), own, all, entered)
}

/// What took the place of first belongs to main, which it goes back to, and not to first.
#[test]
fn a_tail_call_takes_the_place_of_its_caller() {
    let desk = Desk::new("profile-tail");
    desk.file("p.elf", tail().bytes());
    let outcome = desk.run("run p.elf --memory 4K --expect ecall --profile");
    let (_, table) = outcome.out.split_once("\n\n").unwrap();
    assert_eq!(
        table,
        "Where the steps were made: 11 steps in 3 functions, each one counted ('all': with what it called)
         own                 all              entered  function
           6  54.5%             6  54.5%            2  second
           3  27.3%            11 100.0%            1  main
           2  18.2%             2  18.2%            1  first
"
    );
    let object = desk.object("run p.elf --memory 4K --expect ecall --profile --json");
    let expected = [
        row("second", 6, 6, 2),
        row("main", 3, 11, 1),
        row("first", 2, 2, 1),
    ];
    assert_eq!(rows(&object), expected);
    assert_eq!(object.at("profile").at("steps").number(), 11);
    assert_eq!(*object.at("profile").at("cut"), Value::Null);
}

/// Two functions of one name, as two files may have, are told apart by their addresses.
#[test]
fn functions_of_one_name() {
    let desk = Desk::new("profile-same-name");
    let mut elf = tail();
    elf.symbols[1].0 = "second";
    desk.file("p.elf", elf.bytes());
    let outcome = desk.run("run p.elf --memory 4K --expect ecall --profile");
    for row in [
        "2  second (0x80000014)\n",
        "1  main\n",
        "1  second (0x8000000c)\n",
    ] {
        assert!(outcome.out.contains(row), "{}", outcome.out);
    }
}

/// Without symbols a function is where a call goes; what follows by jumps belongs to it.
#[test]
fn without_symbols_functions_are_addresses() {
    let desk = Desk::new("profile-addresses");
    let mut elf = tail();
    elf.symbols.clear();
    desk.file("p.elf", elf.bytes());
    let object = desk.object("run p.elf --memory 4K --expect ecall --profile --json");
    let expected = [
        row("0x8000000c", 5, 5, 1),
        row("0x80000000", 3, 11, 1),
        row("0x80000014", 3, 3, 1),
    ];
    assert_eq!(rows(&object), expected);
}

/// A function that calls itself counts once for all the steps below it.
#[test]
fn recursion_counts_once() {
    let desk = Desk::new("profile-recursion");
    let words = [
        jal(1, 8),   // 0 main: call down
        ECALL,       // 4
        0xff01_0113, // 8 down: addi sp,sp,-16
        0x0011_3023, // 12 sd ra,0(sp)
        0xfff5_0513, // 16 addi a0,a0,-1
        0x0005_0463, // 20 beqz a0,.+8
        jal(1, -16), // 24 call down
        0x0001_3083, // 28 ld ra,0(sp)
        0x0101_0113, // 32 addi sp,sp,16
        RET,         // 36
    ];
    let mut elf = program(&words);
    elf.symbols = vec![
        Symbol("main", 0x8000_0000, 8, FUNCTION),
        Symbol("down", 0x8000_0008, 32, FUNCTION),
    ];
    desk.file("p.elf", elf.bytes());
    let run = "run p.elf --memory 64K --x sp=0x80010000 --expect ecall --profile --json";
    let object = desk.object(&format!("{run} --x a0=100"));
    assert_eq!(
        rows(&object),
        [row("down", 799, 799, 100), row("main", 2, 801, 1)]
    );
    assert_eq!(*object.at("profile").at("cut"), Value::Null);
    // Of a hundred levels the picture has eighty, and says so.
    let text = format!(
        "{} --x a0=100 --profile-svg p.svg",
        run.replace("--json", "")
    );
    assert_eq!(desk.run(&text).status, 0);
    let svg = fs::read_to_string(desk.folder.join("p.svg")).unwrap();
    assert_eq!(svg.matches("<g>").count(), 80);
    assert!(
        svg.contains(">Calls more than 80 deep are not drawn ("),
        "{svg}"
    );
    // Deeper than is kept: own steps stay exact, and it is said that the calls were cut.
    let object = desk.object(&format!("{run} --x a0=2000"));
    assert_eq!(
        rows(&object),
        [row("down", 15_999, 15_999, 2000), row("main", 2, 16_001, 1)]
    );
    assert!(object.at("profile").at("cut").text().contains("500 levels"));
}

/// A call that never comes back, 300,000 times, of which not all have a place.
#[test]
fn calls_without_returns() {
    let desk = Desk::new("profile-endless");
    // addi a0,a0,-1; beqz a0,.+8; jal ra,.-8; ecall
    desk.image("p.bin", &[0xfff5_0513, 0x0005_0463, jal(1, -8), ECALL]);
    let object = desk.object("run p.bin --memory 4K --x a0=300000 --expect ecall --profile --json");
    let rows = rows(&object);
    assert_eq!(rows, [row("0x80000000", 900_000, 900_000, 300_000)]);
    assert!(object.at("profile").at("cut").text().contains("500 levels"));
}

/// A trap that is followed is a call of its handler, and MRET goes back from it; one that is served is none.
#[test]
fn traps_are_calls_of_their_handlers() {
    let desk = Desk::new("profile-traps");
    let words = [
        ECALL,       // 0 main
        NOP,         // 4
        EBREAK,      // 8
        0x3410_22f3, // 12 handler: csrr t0,mepc
        0x0042_8293, // 16 addi t0,t0,4
        0x3412_9073, // 20 csrw mepc,t0
        MRET,        // 24
    ];
    let mut elf = program(&words);
    elf.symbols = vec![
        Symbol("main", 0x8000_0000, 12, FUNCTION),
        Symbol("handler", 0x8000_000c, 16, FUNCTION),
    ];
    desk.file("p.elf", elf.bytes());
    let run = "run p.elf --memory 4K --csr mtvec=0x8000000c --expect ebreak --profile --json";
    let object = desk.object(&format!("{run} --follow 1"));
    assert_eq!(
        rows(&object),
        [row("handler", 4, 4, 1), row("main", 3, 7, 1)]
    );
    let object = desk.object(&format!("{run} --syscalls --x a7=214"));
    assert_eq!(rows(&object), [row("main", 3, 3, 1)]);
}

/// A return that no call waits for, over the stack or into another function, is a jump; all steps are counted where they are made.
#[test]
fn a_stray_return_is_a_jump() {
    let desk = Desk::new("profile-stray");
    let words = [
        jal(1, 12),  // 0 main: call smash
        NOP,         // 4
        ECALL,       // 8
        0x00c0_8093, // 12 smash: addi ra,ra,12
        RET,         // 16 (to 16: itself, once more to there)
        ECALL,       // 20
    ];
    let mut elf = program(&words);
    elf.symbols = vec![
        Symbol("main", 0x8000_0000, 12, FUNCTION),
        Symbol("smash", 0x8000_000c, 8, FUNCTION),
        Symbol("other", 0x8000_0014, 4, FUNCTION),
    ];
    desk.file("p.elf", elf.bytes());
    let object = desk.object("run p.elf --memory 4K --steps 6 --profile --json");
    assert_eq!(rows(&object), [row("smash", 5, 5, 1), row("main", 1, 6, 1)]);
    // addi ra,ra,16: into other.
    elf.loads[0].bytes[12..16].copy_from_slice(&0x0100_8093u32.to_le_bytes());
    desk.file("p.elf", elf.bytes());
    let object = desk.object("run p.elf --memory 4K --expect ecall --profile --json");
    let expected = [
        row("smash", 2, 2, 1),
        row("main", 1, 4, 1),
        row("other", 1, 1, 1),
    ];
    assert_eq!(rows(&object), expected);
}

/// x5 is a link register too, as small functions of a compiler's library use it; and a JALR that goes by one and writes the other is a
/// return and a call.
#[test]
fn the_other_link_register() {
    let desk = Desk::new("profile-x5");
    let (jr_t0, jalr_t0_ra) = (0x0002_8067, 0x0000_82e7);
    let words = [
        jal(1, 12), // 0 main: call half
        jr_t0,      // 4 back into half
        NOP,        // 8
        jal(5, 12), // 12 half: call save, by t0
        jalr_t0_ra, // 16 to main, which goes on with half by t0
        ECALL,      // 20
        NOP,        // 24 save
        jr_t0,      // 28
    ];
    let mut elf = program(&words);
    elf.symbols = vec![
        Symbol("main", 0x8000_0000, 12, FUNCTION),
        Symbol("half", 0x8000_000c, 12, FUNCTION),
        Symbol("save", 0x8000_0018, 8, FUNCTION),
    ];
    desk.file("p.elf", elf.bytes());
    let object = desk.object("run p.elf --memory 4K --expect ecall --profile --json");
    // half is over at its swap, which enters main for a second time, under itself. Its JR ends that, and half takes main's place.
    let expected = [
        row("half", 3, 5, 2),
        row("main", 2, 6, 2),
        row("save", 2, 2, 1),
    ];
    assert_eq!(rows(&object), expected);
}

/// Code behind the end of a function, which no symbol has, is told by where the hart came into it.
#[test]
fn code_without_a_name_beside_functions() {
    let desk = Desk::new("profile-nameless");
    let words = [jal(0, 12), NOP, ECALL, NOP, jal(0, -12)];
    let mut elf = program(&words);
    elf.symbols = vec![Symbol("main", 0x8000_0000, 12, FUNCTION)];
    desk.file("p.elf", elf.bytes());
    let object = desk.object("run p.elf --memory 4K --expect ecall --profile --json");
    let expected = [row("main", 3, 3, 2), row("0x8000000c", 2, 2, 1)];
    assert_eq!(rows(&object), expected);
}

/// Under Sv39, where calls and names go by virtual addresses; with a trace too; and the run ends as without.
#[test]
fn a_profile_changes_nothing_else() {
    let desk = Desk::new("profile-same");
    let mut elf = tail();
    elf.loads[0].address = 0x10000;
    elf.entry = 0x10000;
    for symbol in &mut elf.symbols {
        symbol.1 = symbol.1 - 0x8000_0000 + 0x10000;
    }
    desk.file("p.elf", elf.bytes());
    let run = "run p.elf --memory 16K --map user.map --mode U --sv39 --expect ecall";
    let plain = desk.run(run);
    let profiled = desk.run(&format!("{run} --profile"));
    assert_eq!(
        profiled.out.split_once("\n\nWhere").unwrap().0,
        plain.out.trim_end()
    );
    let expected = [
        row("second", 6, 6, 2),
        row("main", 3, 11, 1),
        row("first", 2, 2, 1),
    ];
    for window in [
        "--trace-to t.txt",
        "--trace-last 3 --trace-to t.txt",
        "--trace-from 4 --trace-steps 3 --trace-to t.txt",
        "",
    ] {
        let object = desk.object(&format!("{run} --profile --json {window}"));
        assert_eq!(rows(&object), expected, "{window}");
    }
}

/// The picture has a box for each way of calls, with its steps where one points at it, and names as XML has them.
#[test]
fn the_picture() {
    let desk = Desk::new("profile-picture");
    let mut elf = tail();
    elf.symbols[2].0 = "less<int>&";
    desk.file("p.elf", elf.bytes());
    let outcome = desk.run("run p.elf --memory 4K --expect ecall --profile-svg p.svg");
    assert_eq!((outcome.status, outcome.err.as_str()), (0, ""));
    assert!(outcome.out.contains("less<int>&\n"), "{}", outcome.out);
    let svg = fs::read_to_string(desk.folder.join("p.svg")).unwrap();
    let boxes: Vec<&str> = svg
        .lines()
        .filter_map(|line| line.strip_prefix("<g><title>")?.split_once("</title>"))
        .map(|(title, _)| title)
        .collect();
    assert_eq!(
        boxes,
        [
            "main: 11 steps (100.0%), 3 of them its own",
            "less&lt;int&gt;&amp;: 6 steps (54.5%), 6 of them its own",
            "first: 2 steps (18.2%), 2 of them its own",
        ]
    );
    assert!(svg.contains(">Where the steps of p.elf were made</text>"));
    assert!(svg.starts_with("<svg ") && svg.ends_with("</svg>\n"));
    // A run of no steps has a picture without boxes.
    let outcome = desk.run("run p.elf --memory 4K --steps 0 --profile-svg p.svg");
    assert_eq!((outcome.status, outcome.err.as_str()), (0, ""));
    let svg = fs::read_to_string(desk.folder.join("p.svg")).unwrap();
    assert!(
        svg.contains("0 steps in 0 functions") && !svg.contains("<g>"),
        "{svg}"
    );
}

#[test]
#[rustfmt::skip]
fn wrong_files_are_refused() {
    let prepare = |desk: &Desk| desk.file("p.elf", tail().bytes());
    refused("profile-wrong", prepare, &[
        ("run p.elf --profile-svg p.elf", "--profile-svg: 'p.elf' is the image, which would be lost; give another file"),
        ("run ok.bin --symbols p.elf --profile-svg ./p.elf", "--profile-svg: './p.elf' is the file of symbols, which would be lost; give another file"),
        ("run p.elf --map user.map --profile-svg user.map", "--profile-svg: 'user.map' is the page map, which would be lost; give another file"),
        ("run p.elf --trace-to x --profile-svg x", "--profile-svg: 'x' is the trace, which would be lost; give another file"),
        ("run p.elf --save x --profile-svg x", "--profile-svg: 'x' is the saved memory, which would be lost; give another file"),
        ("run p.elf --profile-svg no/p.svg", "--profile-svg: 'no/p.svg' cannot be written (No such file or directory (os error 2)); give a file in a folder where you may write"),
        ("run p.elf --profile-svg", "--profile-svg: its FILE is missing; write --profile-svg FILE"),
        ("run p.elf --profile=x", "--profile: it takes no value; write it alone"),
    ]);
}
