//! Maps for people: ranges of pages, `--map auto`, and `--user`, which runs an ELF file with all that a user program needs.

mod common;

use common::elf::*;
use common::json::{Reader, Value};
use common::*;

const LPAD: u32 = 0x0000_0017;
const SD_RA_SP: u32 = 0xfe11_3c23; // sd ra,-8(sp)

/// A user program that pushes to both stacks and calls: code, and data that nobody gave a place in memory.
fn user_program() -> Elf {
    let mut elf = program(&[SSPUSH_RA, SD_RA_SP, SSPOPCHK_RA, ECALL]);
    elf.entry = 0x10008;
    elf.loads[0].address = 0x10008;
    elf.loads[0].physical = 0x10008;
    let mut data = load(0x11100, 0x11100, "rw", &[0x1234_5678]);
    data.length = 0x1000;
    elf.loads.push(data);
    elf.symbols = vec![Symbol("_start", 0x10008, 16, FUNCTION)];
    elf
}

/// The map in a report, as a file would have it.
fn laid_out(report: &str) -> String {
    let (_, map) = report.split_once("as --map FILE takes it:\n").unwrap();
    map.lines()
        .map(|line| format!("{}\n", line.trim()))
        .collect()
}

/// A report without its line ends.
fn in_one_line(report: &str) -> String {
    report.split_whitespace().collect::<Vec<_>>().join(" ")
}

const LAID_OUT: &str = "\
# segment 0
0x10000..0x11000 -> 0x80000000 r-x u
# segment 1
0x11000..0x13000 -> 0x80001000 rw- u
# stack of 16384 bytes: --x sp=0x3fffffc0
0x3fffc000..0x40000000 -> 0x80003000 rw- u
# shadow stack of 4096 bytes: --ssp 0x50000000
0x4ffff000..0x50000000 -> 0x80007000 shadow u
";

#[test]
fn a_user_program_needs_no_more_than_user() {
    let desk = Desk::new("user");
    desk.file("p.elf", user_program().bytes());
    let outcome = desk.run("run p.elf --user --expect ecall --dump 0x80001100:8");
    assert_eq!(
        (outcome.status, outcome.err.as_str()),
        (0, ""),
        "{}",
        outcome.out
    );
    let (report, dump) = outcome
        .out
        .split_once("\n0x80001100  78 56 34 12 00 00 00 00")
        .unwrap();
    assert!(dump.lines().count() == 1, "{dump}");
    assert_eq!(laid_out(report), LAID_OUT);
    let rows = "
  start     0x10008, as p.elf gives it; the hart began there
  user      U under Sv39 by the map below, shadow stack on, landing pads off, since the program has
            none
  began     at pc 0x10008 <_start+0x0> with sp 0x3fffffc0 and ssp 0x50000000
";
    assert!(report.contains(rows), "{report}");
    let end = desk.object("run p.elf --user --expect ecall --json");
    assert_eq!(end.at("map").texts().join("\n") + "\n", LAID_OUT);
    assert_eq!(end.at("registers").at("sp").hex(), 0x3fff_ffc0);
}

/// The map that is printed can be kept: with the options that it names, the run is the same, names of memory included.
#[test]
fn a_map_that_was_laid_out_can_be_kept() {
    let desk = Desk::new("user-kept");
    desk.file("p.elf", user_program().bytes());
    desk.file("kept.map", LAID_OUT);
    let own = desk.object("run p.elf --user --expect ecall --json --trace-to own.txt");
    let start = "--mode U --sv39 --shadow-stack --ssp 0x50000000 --x sp=0x3fffffc0";
    let kept =
        format!("run p.elf --map kept.map {start} --expect ecall --json --trace-to kept.txt");
    let kept = desk.object(&kept);
    for member in ["registers", "csrs", "trap", "count", "pc"] {
        assert_eq!(own.at(member), kept.at(member), "{member}");
    }
    let trace = |name| std::fs::read_to_string(desk.folder.join(name)).unwrap();
    assert_eq!(trace("own.txt"), trace("kept.txt"));
    assert!(trace("own.txt").starts_with("0x10008 <_start+0x0>\n"));
}

/// What is given beside --user counts, and is what the report shows.
#[test]
fn options_act_on_top_of_user() {
    let desk = Desk::new("user-options");
    desk.file("p.elf", user_program().bytes());
    let outcome = desk.run(
        "run p.elf --user --pc 0x1000c --x sp=0x12ff0 --ssp 0x4fffff00 --landing-pads --steps 1",
    );
    assert_eq!(
        (outcome.status, outcome.err.as_str()),
        (0, ""),
        "{}",
        outcome.out
    );
    let row = "  began     at pc 0x1000c <_start+0x4> with sp 0x12ff0 and ssp 0x4fffff00\n";
    assert!(outcome.out.contains(row), "{}", outcome.out);
    let said = in_one_line(&outcome.out);
    assert!(
        said.contains("landing pads on (0 in the program)"),
        "{said}"
    );
    let off = desk.run("run p.elf --user --csr menvcfg=0 --csr satp=0 --steps 0");
    let said = in_one_line(&off.out);
    assert!(
        said.contains("U with satp Bare, shadow stack off, landing pads off"),
        "{said}"
    );
}

/// Pads are on exactly where the program has any.
#[test]
fn pads_are_on_where_the_program_has_them() {
    let desk = Desk::new("user-pads");
    let mut elf = user_program();
    elf.loads[0].bytes[..4].copy_from_slice(&LPAD.to_le_bytes());
    desk.file("p.elf", elf.bytes());
    let end = Reader::whole(&desk.run("run p.elf --user --steps 1 --json").out);
    let envcfg = |name: &str| end.at("csrs").at(name).hex();
    assert_eq!(
        (envcfg("menvcfg"), envcfg("senvcfg"), envcfg("mseccfg")),
        (0xc, 0xc, 0)
    );
    let words = end.at("words").texts().join("\n");
    assert!(
        words.contains("landing pads on (1 in the program)"),
        "{words}"
    );
    // A word of data that looks like one is none.
    let mut elf = user_program();
    elf.loads[1].bytes.copy_from_slice(&LPAD.to_le_bytes());
    desk.file("p.elf", elf.bytes());
    let end = Reader::whole(&desk.run("run p.elf --user --steps 1 --json").out);
    assert_eq!(end.at("csrs").at("senvcfg").hex(), 0x8);
}

fn entries(report: &str) -> Vec<String> {
    let map = laid_out(report);
    map.lines()
        .filter(|line| !line.starts_with('#'))
        .map(str::to_string)
        .collect()
}

/// Segments that lie in memory stay there, and what is laid out takes other frames.
#[test]
fn segments_in_memory_keep_their_frames() {
    let desk = Desk::new("auto-frames");
    let mut elf = user_program();
    elf.loads[1].physical = 0x8000_0100;
    desk.file("p.elf", elf.bytes());
    let outcome =
        desk.run("run p.elf --user --stack 8K --shadow 8K --expect ecall --dump 0x80000100:4");
    assert_eq!(outcome.status, 0, "{}", outcome.out);
    assert!(outcome
        .out
        .ends_with("\n0x80000100  78 56 34 12                                      |xV4.|\n"));
    assert_eq!(
        entries(outcome.out.split_once("\n0x80000100").unwrap().0),
        [
            "0x10000..0x11000 -> 0x80002000 r-x u",
            "0x11000..0x13000 -> 0x80000000 rw- u",
            "0x3fffe000..0x40000000 -> 0x80003000 rw- u",
            "0x4fffe000..0x50000000 -> 0x80005000 shadow u",
        ]
    );
}

/// Rights are those of the segments; W goes with R, and without any right there is no page. In S no page is U's.
#[test]
fn rights_are_those_of_the_segments() {
    let desk = Desk::new("auto-rights");
    let mut elf = user_program();
    elf.entry = 0x10008;
    for (n, rights) in (2..).zip(["r", "w", "x", "rwx", ""]) {
        elf.loads.push(load(n * 0x10000, n * 0x10000, rights, &[0]));
    }
    // Two segments of one page, with the same rights.
    elf.loads.push(load(0x20010, 0x20010, "r", &[5]));
    desk.file("p.elf", elf.bytes());
    let outcome = desk.run("run p.elf --map auto --mode S --sv39 --expect ecall --shadow-stack --ssp 0x50000000 --x sp=0x40000000");
    assert_eq!(outcome.status, 0, "{}", outcome.out);
    let map = laid_out(&outcome.out);
    for line in [
        "# segment 2, 7\n0x20000..0x21000 -> 0x80003000 r--\n",
        "0x30000..0x31000 -> 0x80004000 rw-\n",
        "0x40000..0x41000 -> 0x80005000 --x\n",
        "0x50000..0x51000 -> 0x80006000 rwx\n",
        "# segment 6 has no rights, and so no pages\n",
        " shadow\n",
    ] {
        assert!(map.contains(line), "{line}: {map}");
    }
    assert!(!map.contains(" u\n") && !map.contains("0x60000"), "{map}");
    assert!(!outcome.out.contains("  user  "), "{}", outcome.out);
}

/// The page before each stack and the page behind it are nobody's, also where a segment is in the way.
#[test]
fn stacks_have_guard_pages() {
    let desk = Desk::new("auto-guards");
    let mut elf = user_program();
    elf.loads.push(load(0x4000_0000, 0x4000_0000, "r", &[0]));
    elf.loads.push(load(0x4fff_d000, 0x4fff_d000, "r", &[0]));
    desk.file("p.elf", elf.bytes());
    let outcome = desk.run("run p.elf --user --expect ecall");
    let entries = entries(&outcome.out);
    assert_eq!(entries[4], "0x5fffc000..0x60000000 -> 0x80005000 rw- u");
    assert_eq!(entries[5], "0x4ffff000..0x50000000 -> 0x80009000 shadow u");
    // A store below the stack meets no page.
    let mut elf = user_program();
    elf.loads[0].bytes[..4].copy_from_slice(&SD_RA_SP.to_le_bytes());
    desk.file("p.elf", elf.bytes());
    let outcome = desk.run("run p.elf --user --x sp=0x3fffc000");
    let said = in_one_line(&outcome.out);
    assert!(
        said.contains("no entry of the map has page 0x3fffb000"),
        "{said}"
    );
}

/// A range is its pages in frames that follow each other.
#[test]
fn ranges_are_their_pages() {
    let desk = Desk::new("ranges");
    desk.image("p.bin", &[ECALL]);
    let frames = |map: &str| {
        desk.file("m.map", map);
        desk.object("frames --map m.map --memory 32K --shadow-stack --json")
    };
    let range = frames("0x10000 .. 0x13000 -> 0x80000000 r-x u # code\n");
    let lines = frames(
        "0x12000 -> 0x80002000 r-x u\n0x10000 -> 0x80000000 r-x u\n0x11000 -> 0x80001000 r-x u\n",
    );
    let names = |end: &Value| -> Vec<String> {
        let by = |frame: &Value| frame.at("by").list()[0].at("entry").text().to_string();
        end.at("named").list().iter().map(by).collect()
    };
    assert_eq!(names(&range), names(&lines));
    assert_eq!(names(&range).len(), 3);
    let last = "run p.bin --map m.map --mode U --sv39 --pc 0x3fffffe000 --expect ecall";
    desk.file("m.map", "0x3fffffe000..0x4000000000 -> 0x80000000 rx u\n");
    assert_eq!(desk.run(last).status, 0, "the last pages of the lower half");
    desk.file("m.map", "0..0x40000 -> 0x80000000 rx u\n");
    assert_eq!(
        desk.run("run p.bin --map m.map --mode U --sv39 --pc 0 --expect ecall")
            .status,
        0,
        "64 pages"
    );
}

#[test]
#[rustfmt::skip]
fn wrong_ranges() {
    for (map, wrong) in [
        ("0x10000..0x10000 -> 0x80000000 r", "1: the range 0x10000..0x10000 has no page; its end is the first address behind it, for instance 0x11000"),
        ("0x10000..0x8000 -> 0x80000000 r", "1: the range 0x10000..0x8000 has no page; its end is the first address behind it, for instance 0x11000"),
        ("0xfffffffffffff000..0 -> 0x80000000 r", "1: the range 0xfffffffffffff000..0 has no page; give the last page a line of its own"),
        ("0x10000..0x10800 -> 0x80000000 r", "1: virtual address 0x10800 is not a multiple of 4096; try 0x10000"),
        ("0x10000.. -> 0x80000000 r", "1: '' is not a number; write it as 4096, 0x1000 or 0b1000"),
        ("0x10000..0x12000 -> leaf 0xdf", "1: 'leaf' gives the word of one page; for a range give a physical address and flags"),
        ("0..0x4000001000 -> 0x80000000 r", "1: virtual address 0x4000000000 is not of Sv39; its bits 63:39 must equal bit 38"),
        ("0..0xfffffffffffff000 -> 0x80000000 r", "1: the range 0..0xfffffffffffff000 goes over addresses that are not of Sv39; give two ranges"),
        ("0..0x2000 -> 0xfffffffffff000 r", "1: physical address 0x100000000000000 has more than 56 bits, the most that a leaf holds"),
        ("0x2000 -> 0x80000000 r\n0x1000..0x4000 -> 0x80001000 r", "2: page 0x2000 stands already in line 1; give each page once"),
        ("0..0x40000 -> 0x80000000 r\n\n0x50000 -> 0x80000000 r\n0x60000..0x62000 -> 0x80000000 r", "3: the map has 67 pages, and the hart takes at most 64; this line is the first over it"),
        ("0..0x4000000000 -> 0x80000000 r", "1: the map has 67108864 pages, and the hart takes at most 64; this line is the first over it"),
    ] {
        let prepare = |desk: &Desk| desk.file("m.map", map);
        refused("wrong-ranges", prepare, &[("frames --map m.map", &format!("m.map:{wrong}"))]);
    }
}

#[test]
#[rustfmt::skip]
fn wrong_layouts() {
    let prepare = |desk: &Desk| {
        let mut elf = user_program();
        desk.file("p.elf", elf.bytes());
        desk.file("one.map", "0x10000 -> 0x80000000 rx u\n0x11000 -> 0x80001000 rw u\n0x12000 -> 0x80003000 rw u\n");
        elf.loads[1].address = 0x10800;
        desk.file("shared.elf", elf.bytes());
        elf.loads[1].address = 0x20000;
        elf.loads[1].length = 60 << 12;
        desk.file("large.elf", elf.bytes());
        elf.loads[1].length = 4;
        elf.loads[1].address = 1 << 38;
        desk.file("high.elf", elf.bytes());
    };
    refused("wrong-layouts", prepare, &[
        ("run ok.bin --user", "--user: it lays out the segments of an ELF file, and ok.bin is none; give --map FILE"),
        ("run ok.bin --map auto", "--map auto: it lays out the segments of an ELF file, and ok.bin is none; give --map FILE"),
        ("run p.elf --user --map one.map", "--user: it lays out its own map; leave out --map, or with yours give --mode U --sv39 --shadow-stack, --ssp and --x sp"),
        ("run p.elf --user --mode U", "--user: it does not go with --mode; leave one out"),
        ("run p.elf --stack 8K", "--stack: it is for the map of --map auto or --user; leave it out"),
        ("run p.elf --map one.map --shadow 8K", "--shadow: it is for the map of --map auto or --user; leave it out"),
        ("run p.elf --user --stack 0", "--stack: 0 bytes are no stack; try 4096 or more, for instance 16K"),
        ("run p.elf --user --stack 5000", "--stack: 5000 is not a multiple of 4096; try 4096 or 8192"),
        ("run p.elf --user --shadow 2M", "--shadow: 2097152 is over 1048576 (1M), the most that the hart takes"),
        ("run p.elf --user --stack 244K", "p.elf: the program has 3 pages and its stacks 62, and a map has at most 64; make the program or --stack smaller"),
        ("run p.elf --user --memory 16K", "p.elf: memory of 16384 bytes has no 16384 bytes in a row left for the map's pages; give more by --memory"),
        ("run large.elf --user", "large.elf: the program has 61 pages and its stacks 5, and a map has at most 64; make the program or --stack smaller"),
        ("run shared.elf --user", "shared.elf: segments 0 and 1 share the page 0x10000, with rights r-x and rw-; link them on pages of their own (ALIGN(4096) in the linker script)"),
        ("run high.elf --user", "--map auto:4: virtual address 0x4000000000 is not of Sv39; its bits 63:39 must equal bit 38"),
        ("run p.elf --map one.map", "p.elf: segment 1 lies outside memory, and the map does not have its page 0x12000 at 0x80002000, behind the one before; give it frames in a row"),
        ("run p.elf --map user.map", "p.elf: segment 1 lies at physical 0x11100 to 0x120ff, outside memory, which is 0x80000000 to 0x800fffff; link it to run from 0x80000000 on, or run it in user mode with --user"),
    ]);
}
