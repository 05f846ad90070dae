//! ELF files: told by their content, placed by their segments, started at their entry point.

mod common;

use common::elf::*;
use common::json::{self, Value};
use common::*;

/// The same words run the same way, and the entry point is where the hart begins.
#[test]
fn a_program_runs_as_its_raw_image_does() {
    let desk = Desk::new("elf-run");
    desk.image("p.bin", &COUNTDOWN);
    desk.file("p.elf", program(&COUNTDOWN).bytes());
    let options = "--memory 4K --x a0=3 --trace --registers --dump 0x80000000:16";
    let raw = desk.run(&format!("run p.bin {options}"));
    let row = "  start     0x80000000, as p.elf gives it; the hart began there\n";
    for format in ["", "--format elf"] {
        let outcome = desk.run(&format!("run p.elf {format} {options}"));
        assert_eq!((outcome.status, outcome.err.as_str()), (3, ""));
        assert_eq!(outcome.out.replace(row, ""), raw.out);
        assert_ne!(outcome.out, raw.out);
    }
    let text = desk.run("run p.elf --format raw --steps 1");
    assert!(text.out.contains("464c457f"), "{}", text.out);
}

#[test]
fn the_entry_point_is_taken_unless_pc_is_given() {
    let desk = Desk::new("elf-entry");
    let mut elf = program(&[EBREAK, ECALL]);
    elf.entry = 0x8000_0004;
    desk.file("p.elf", elf.bytes());
    let end = |options: &str| {
        let outcome = desk.run(&format!("run p.elf --json {options}"));
        json::Reader::whole(&outcome.out)
    };
    let cause = |end: &Value| end.at("trap").at("cause").number();
    let (taken, given) = (end(""), end("--pc 0x80000000"));
    assert_eq!((cause(&taken), cause(&given)), (11, 3));
    assert_eq!(cause(&end("--pc start")), 11);
    assert_eq!(taken.at("image").at("format").text(), "elf");
    assert_eq!(taken.at("image").at("start").hex(), 0x8000_0004);
    let outcome = desk.run("run p.elf --pc 0x80000000");
    let row = "  start     0x80000004, as p.elf gives it; the hart began at 0x80000000 (--pc start takes it)\n";
    assert!(outcome.out.contains(row), "{}", outcome.out);
}

/// Segments lie where their physical addresses say, and what is behind a segment's bytes is 0.
#[test]
fn segments_are_placed_by_physical_address() {
    let desk = Desk::new("elf-segments");
    let mut elf = program(&[ECALL]);
    elf.loads[0].address = 0x10000;
    elf.entry = 0x10000;
    let mut data = load(0x20000, 0x8000_1ffc, "rw", &[0x1234_5678]);
    data.length = 12;
    elf.loads.push(data);
    // No bytes at all, wherever it lies.
    elf.loads.push(load(0, 0, "r", &[]));
    desk.file("p.elf", elf.bytes());
    let outcome = desk.run(&format!(
        "run p.elf {} --expect ecall --save mem.bin",
        USER.replace("--pc 0x10000 ", "")
    ));
    assert_eq!((outcome.status, outcome.err.as_str()), (0, ""));
    let mut expected = vec![0; 16384];
    expected[..4].copy_from_slice(&ECALL.to_le_bytes());
    expected[0x1ffc..0x2000].copy_from_slice(&0x1234_5678u32.to_le_bytes());
    assert_eq!(
        std::fs::read(desk.folder.join("mem.bin")).unwrap(),
        expected
    );
}

/// GNU ld with -Ttext 0x80000000 puts the file's headers on the page before: they are no part of the program.
#[test]
fn headers_before_memory_are_left_out() {
    let desk = Desk::new("elf-headers");
    let mut elf = program(&[ECALL]);
    // The segment begins at offset 0 of the file, and .text behind the headers.
    elf.loads[0].address = 0x8000_0000 - 120;
    elf.loads[0].physical = elf.loads[0].address;
    elf.headers_loaded = true;
    desk.file("p.elf", elf.bytes());
    let outcome = desk.run("run p.elf --expect ecall --dump 0x80000000:8");
    assert_eq!((outcome.status, outcome.err.as_str()), (0, ""));
    assert!(outcome.out.contains("0x80000000  73 00 00 00 00 00 00 00"));
}

/// Every way in which a file can begin as an ELF file does and be none for this hart.
#[test]
#[rustfmt::skip]
fn wrong_headers() {
    let good = program(&[ECALL]).bytes();
    let with = |at: usize, bytes: &[u8]| {
        let mut file = good.clone();
        file[at..at + bytes.len()].copy_from_slice(bytes);
        file
    };
    let machine = |number: u8| with(18, &[number, 0]);
    for (file, wrong) in [
        (machine(62), "it is an ELF file for x86-64, and this hart is RISC-V; compile for riscv64"),
        (machine(183), "it is an ELF file for AArch64, and this hart is RISC-V; compile for riscv64"),
        (machine(99), "it is an ELF file for machine 99, and this hart is RISC-V; compile for riscv64"),
        (with(4, &[1]), "it is an ELF file for RV32, and this hart is RV64; compile with -march=rv64i.. -mabi=lp64"),
        (with(5, &[2]), "it is a big-endian ELF file, and this hart is little-endian; compile for riscv64"),
        (with(16, &[1]), "it is an object file that was not linked (type REL); link it, and give the program"),
        (with(16, &[4]), "it is a core file (type CORE) and no program; give the program"),
        (good[..7].to_vec(), "it begins as an ELF file and ends after 7 bytes, within its header of 64; it was cut off"),
        (good[..63].to_vec(), "it begins as an ELF file and ends after 63 bytes, within its header of 64; it was cut off"),
        (good[..100].to_vec(), "the ELF file is broken: Invalid ELF program header size or alignment"),
        (good[..130].to_vec(), "the ELF file is broken: Invalid ELF section header offset/size/alignment"),
        (with(54, &[1]), "the ELF file is broken: Invalid ELF program header entry size"),
        (with(4, &[9]), "the ELF file is broken: Unsupported ELF header"),
    ] {
        let prepare = |desk: &Desk| desk.file("p.elf", &file);
        refused("elf-headers", prepare, &[
            ("run p.elf", &format!("p.elf: {wrong}")),
            ("run ok.bin --symbols p.elf", &format!("p.elf: {wrong}")),
        ]);
    }
}

#[test]
#[rustfmt::skip]
fn wrong_segments() {
    let with = |change: fn(&mut Elf)| {
        let mut elf = program(&[ECALL]);
        change(&mut elf);
        elf.bytes()
    };
    let number = |at: usize, value: u64| {
        let mut file = program(&[ECALL]).bytes();
        file[64 + at..64 + at + 8].copy_from_slice(&value.to_le_bytes());
        file
    };
    for (file, wrong) in [
        (with(|elf| elf.loads.clear()), "the ELF file has no loadable segments, so nothing to run; give a linked program"),
        (with(|elf| elf.loads[0].length = 0), "the ELF file has no loadable segments, so nothing to run; give a linked program"),
        (with(|elf| elf.loads[0].physical = 0x1_0000), "segment 0 lies at physical 0x10000 to 0x10003, outside memory, which is 0x80000000 to 0x80000fff; link it to run from 0x80000000 on, or run it in user mode with --user"),
        (with(|elf| { elf.kind = 3; elf.loads[0].physical = 0 }), "segment 0 lies at physical 0x0 to 0x3, outside memory, which is 0x80000000 to 0x80000fff; it is position-independent; link it with -no-pie"),
        (with(|elf| elf.loads[0].length = 4097), "segment 0 lies at physical 0x80000000 to 0x80001000, outside memory, which is 0x80000000 to 0x80000fff; try --memory 8192"),
        (with(|elf| elf.loads.push(load(0, 0x8000_0002, "rw", &[1]))), "segments 0 and 1 both have physical 0x80000002; link them apart"),
        (number(8, 1 << 40), "the ELF file is broken: segment 0 has 4 bytes from offset 0x10000000000 on, and the file ends at 0x1f6; it was cut off"),
        (number(32, u64::MAX), "the ELF file is broken: segment 0 has 18446744073709551615 bytes from offset 0x78 on, and the file ends at 0x1f6; it was cut off"),
        (number(40, 3), "the ELF file is broken: segment 0 has 4 bytes in the file and only 3 in memory"),
        (number(40, u64::MAX), "the ELF file is broken: segment 0 goes past the last page"),
    ] {
        let prepare = |desk: &Desk| desk.file("p.elf", &file);
        refused("elf-segments", prepare, &[("run p.elf --memory 4K", &format!("p.elf: {wrong}"))]);
    }
}

#[test]
#[rustfmt::skip]
fn wrong_files() {
    let prepare = |desk: &Desk| {
        desk.file("p.elf", program(&[ECALL]).bytes());
        desk.file("huge.elf", b"\x7fELF");
        let huge = std::fs::OpenOptions::new().write(true).open(desk.folder.join("huge.elf")).unwrap();
        huge.set_len((1 << 26) + 1).unwrap();
    };
    refused("elf-files", prepare, &[
        ("run ok.bin --format elf", "ok.bin: it does not begin with the bytes 7f 45 4c 46, as an ELF file does; give an ELF file, or leave out --format"),
        ("run ok.bin --symbols ok.bin", "ok.bin: it does not begin with the bytes 7f 45 4c 46, as an ELF file does; give an ELF file, or leave out --format"),
        ("run ok.bin --symbols none.elf", "none.elf: there is no such file; check the path"),
        ("run ok.bin --symbols", "--symbols: its FILE.elf is missing; write --symbols FILE.elf"),
        ("run ok.bin --symbols p.elf --save p.elf", "--save: 'p.elf' is the file of symbols, which would be lost; give another file"),
        ("run p.elf --save p.elf", "--save: 'p.elf' is the image, which would be lost; give another file"),
        ("run huge.elf", "huge.elf: the file has more than 67108864 bytes (64M); take out debug information with objcopy --strip-debug"),
        ("hex p.elf", "p.elf: it is an ELF file; give a raw image (objcopy -O binary makes one)"),
        ("disasm --image p.elf", "p.elf: it is an ELF file; give a raw image (objcopy -O binary makes one)"),
    ]);
}
