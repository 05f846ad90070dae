//! Intel HEX: files that are run, told from raw images, their start address, and what `desk hex` writes.

mod common;

use common::json::Value;
use common::*;

/// COUNTDOWN as `desk hex` writes it, with a start address behind its first word.
const COUNTDOWN_HEX: &str = "\
:0200000480007A
:0C0000001305F5FFE31E05FE7300000071
:040000058000000473
:00000001FF
";

/// The same bytes run the same way, however the text is written.
#[test]
fn a_file_runs_as_the_raw_image_does() {
    let desk = Desk::new("hex-run");
    desk.image("p.bin", &COUNTDOWN);
    let options = "--memory 4K --x a0=3 --trace --registers --dump 0x80000000:16";
    let raw = desk.run(&format!("run p.bin {options}"));
    assert!(raw.out.contains("Stopped by a trap in step 7: cause 11"));
    let row = "  start     0x80000004, as p.hex gives it; the hart began at 0x80000000 (--pc start takes it)\n";
    let dos = COUNTDOWN_HEX.replace('\n', "\r\n");
    let small = COUNTDOWN_HEX.to_ascii_lowercase();
    for text in [COUNTDOWN_HEX, &dos, &small, COUNTDOWN_HEX.trim_end()] {
        desk.file("p.hex", text);
        let outcome = desk.run(&format!("run p.hex {options}"));
        assert_eq!((outcome.status, outcome.err.as_str()), (3, ""));
        assert_eq!(outcome.out.replace(row, ""), raw.out);
        assert_ne!(outcome.out, raw.out);
    }
    let without: String = COUNTDOWN_HEX.replace(":040000058000000473\n", "");
    desk.file("p.hex", without);
    assert_eq!(desk.run(&format!("run p.hex {options}")).out, raw.out);
}

/// A user program with its map, in records that do not follow each other.
#[test]
fn a_file_goes_where_its_records_say() {
    let desk = Desk::new("hex-places");
    let text = "\
:0200000480007A
:0820000048656C6C6F210000C3
:040000007300000089
:022FFE00BEEF24
:00000001FF
";
    desk.file("p.hex", text);
    let outcome = desk.run(&format!("run p.hex {USER} --expect ecall --save mem.bin"));
    assert_eq!(
        (outcome.status, outcome.err.as_str()),
        (0, ""),
        "{}",
        outcome.out
    );
    let mut expected = vec![0; 16384];
    expected[..4].copy_from_slice(&ECALL.to_le_bytes());
    expected[0x2000..0x2006].copy_from_slice(b"Hello!");
    expected[0x2FFE..0x3000].copy_from_slice(&[0xBE, 0xEF]);
    assert_eq!(
        std::fs::read(desk.folder.join("mem.bin")).unwrap(),
        expected
    );
}

#[test]
fn the_format_is_told_by_the_content_or_given() {
    let desk = Desk::new("hex-format");
    desk.file("p.hex", COUNTDOWN_HEX);
    desk.image("p.bin", &COUNTDOWN);
    let format = |arguments: &str| {
        let end = desk.object(&format!("run {arguments} --steps 0 --json"));
        end.at("image").at("format").text().to_string()
    };
    assert_eq!(format("p.hex"), "hex");
    assert_eq!(format("p.bin"), "raw");
    assert_eq!(format("p.hex --format hex"), "hex");
    assert_eq!(format("p.bin --format raw"), "raw");
    // A text as a raw image lies in memory as it is.
    let outcome = desk.run("run p.hex --format raw --steps 0 --dump 0x80000000:16");
    assert!(
        outcome.out.contains("|:0200000480007A.|"),
        "{}",
        outcome.out
    );
    assert!(!outcome.out.contains("  start "));
}

#[test]
fn the_start_address_is_told_and_taken_where_it_is_asked_for() {
    let desk = Desk::new("hex-start");
    desk.file("p.hex", COUNTDOWN_HEX);
    desk.image("p.bin", &COUNTDOWN);
    let image = |arguments: &str| desk.object(&format!("run {arguments} --steps 0 --json"));
    let told = image("p.hex");
    assert_eq!(told.at("image").at("start").text(), "0x0000000080000004");
    assert_eq!(told.at("pc").text(), "0x0000000080000000");
    let taken = image("p.hex --pc start");
    assert_eq!(taken.at("pc").text(), "0x0000000080000004");
    let row = "start: 0x80000004, as p.hex gives it; the hart began there";
    assert_eq!(taken.at("words").list().last().unwrap().text(), row);
    assert_eq!(*image("p.bin").at("image").at("start"), Value::Null);
    // The last of several, and also one that is not in memory.
    let two = COUNTDOWN_HEX.replace(":00000001FF", ":04000005FFFFFFF00A\n:00000001FF");
    desk.file("p.hex", two);
    assert_eq!(
        image("p.hex").at("image").at("start").text(),
        "0x00000000fffffff0"
    );
}

/// What `desk hex` writes is loaded back to the same bytes.
#[test]
fn an_image_is_written_and_loaded_back() {
    let desk = Desk::new("hex-write");
    desk.image("p.bin", &COUNTDOWN);
    let printed = desk.run("hex p.bin --start 0x80000004");
    assert_eq!((printed.status, printed.err.as_str()), (0, ""));
    assert_eq!(printed.out, COUNTDOWN_HEX);

    let bytes: Vec<u8> = (0..200_003u32)
        .map(|at| (at.wrapping_mul(0x9E37_79B1) >> 23) as u8)
        .collect();
    desk.file("big.bin", &bytes);
    for (options, place) in [
        ("", 0),
        ("--length 1", 0),
        ("--length 255", 0),
        ("--length 32 --at 0x80000fff", 0xFFF),
        ("--length 7 --at 0x8000fffd --start 0", 0xFFFD),
        ("--at 2_148_332_221", 848_573),
    ] {
        let written = desk.run(&format!("hex big.bin {options} -o big.hex"));
        assert_eq!(
            (written.status, written.out.as_str(), written.err.as_str()),
            (0, "", "")
        );
        let text = std::fs::read_to_string(desk.folder.join("big.hex")).unwrap();
        assert_eq!(desk.run(&format!("hex big.bin {options}")).out, text);
        let loaded = desk.run("run big.hex --steps 0 --save mem.bin");
        assert_eq!(loaded.status, 0, "{options}: {}", loaded.err);
        let mem = std::fs::read(desk.folder.join("mem.bin")).unwrap();
        let mut expected = vec![0; 1 << 20];
        expected[place..place + bytes.len()].copy_from_slice(&bytes);
        assert!(mem == expected, "{options}");
    }
}

/// The file that it replaces may have been longer, and a disk may be full.
#[test]
fn the_written_file_is_whole() {
    let desk = Desk::new("hex-file");
    desk.image("p.bin", &COUNTDOWN);
    desk.file("old.hex", vec![b'x'; 5000]);
    assert_eq!(
        desk.run("hex p.bin --start 0x80000004 -o old.hex").status,
        0
    );
    let text = std::fs::read_to_string(desk.folder.join("old.hex")).unwrap();
    assert_eq!(text, COUNTDOWN_HEX);
    let full = desk.run("hex p.bin -o /dev/full");
    assert_eq!(full.status, 1);
    let line = "desk: the output could not be written: /dev/full: No space left on device";
    assert!(full.err.starts_with(line), "{}", full.err);
}
