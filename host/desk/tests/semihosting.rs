//! `--semihosting`: what each operation does to the console, to registers and to memory, and what is not served.

mod common;

use common::calls::*;
use common::json::{Reader, Value};
use common::*;

/// A semihosting call with this operation and argument; the data are the argument block and what it points to.
fn semihosted(data: &[u8], input: &str, operation: u64, argument: &str) -> (Outcome, Value) {
    let desk = Desk::new(&format!(
        "semihosting-{operation}-{argument}-{}-{}",
        data.len(),
        input.len()
    ));
    program(&desk, &[SLLI, EBREAK, SRAI, ECALL], data);
    let options = format!("--semihosting --expect ecall --json --dump 0x80001000:64 --x a0={operation} --x a1={argument}");
    let outcome = desk.run_with(&format!("{RUN} {options}"), input);
    assert_eq!(outcome.status, 0, "{operation}: {}", outcome.err);
    let object = Reader::whole(&outcome.out);
    (outcome, object)
}

fn block(words: &[u64], text: &[u8]) -> Vec<u8> {
    let mut block: Vec<u8> = words.iter().flat_map(|word| word.to_le_bytes()).collect();
    block.resize(32, 0);
    block.extend(text);
    block
}

#[test]
fn semihosting_writes_characters_and_texts() {
    let (outcome, _) = semihosted(b"x", "", 3, "0x20000");
    assert_eq!(outcome.err, "x");
    let (outcome, _) = semihosted(b"some text\n\0more", "", 4, "0x20000");
    assert_eq!(outcome.err, "some text\n");
    for (operation, argument) in [(3, "0x22000"), (4, "0x22000"), (4, "-1")] {
        let (outcome, object) = semihosted(b"", "", operation, argument);
        assert_eq!(
            (outcome.err.as_str(), a0(&object)),
            ("", u64::MAX),
            "{operation}"
        );
    }
    // A text that no 0 ends, up to the end of its pages.
    let endless = [vec![b'x'; 4096], vec![0; 4096], vec![b'x'; 4096]].concat();
    let (outcome, object) = semihosted(&endless, "", 4, "0x20000");
    assert_eq!((outcome.err.as_str(), a0(&object)), ("", u64::MAX));
}

#[test]
fn semihosting_reads_the_console() {
    let (_, object) = semihosted(b"", "q", 7, "0");
    assert_eq!(a0(&object), u64::from(b'q'));
    let (_, object) = semihosted(b"", "", 7, "0");
    assert_eq!(a0(&object), u64::MAX, "the end of the input");
}

#[test]
fn semihosting_opens_the_console_and_no_file() {
    for (name, mode, answer) in [
        (":tt", 0, 1),
        (":tt", 4, 1),
        (":tt", 8, 1),
        (":tt", 12, u64::MAX),
        ("file.txt", 4, u64::MAX),
        (":semihosting-features", 0, 1),
        (":semihosting-features", 4, u64::MAX),
    ] {
        let data = block(&[0x20020, mode, name.len() as u64], name.as_bytes());
        let (_, object) = semihosted(&data, "", 1, "0x20000");
        assert_eq!(a0(&object), answer, "{name} {mode}");
    }
    let (_, object) = semihosted(b"", "", 1, "0x21ff8");
    assert_eq!(a0(&object), u64::MAX, "a block that is cut off");
}

/// Opens with the block at 0x20000 and goes on with `operation` by the block at 0x20040.
fn opened(
    mode: u64,
    input: &str,
    operation: u32,
    second: &[u64],
    more: &[u32],
) -> (Outcome, Value) {
    let desk = Desk::new(&format!(
        "opened-{mode}-{operation}-{}-{}",
        second.len(),
        more.len()
    ));
    let mut words = vec![SLLI, EBREAK, SRAI];
    words.extend([operation << 20 | 0x513, 0x0405_8593]); // li a0,operation; addi a1,a1,64
    words.extend([SLLI, EBREAK, SRAI]);
    words.extend(more);
    words.push(ECALL);
    let mut data = block(&[0x20020, mode, 3], b":tt");
    data.resize(64, 0);
    data.extend(block(second, b"some text"));
    program(&desk, &words, &data);
    let options =
        "--semihosting --expect ecall --json --dump 0x80001000:128 --x a0=1 --x a1=0x20000";
    let outcome = desk.run_with(&format!("{RUN} {options}"), input);
    assert_eq!(outcome.status, 0, "{}", outcome.err);
    let object = Reader::whole(&outcome.out);
    (outcome, object)
}

#[test]
fn semihosting_handles() {
    let (outcome, object) = opened(4, "", 5, &[1, 0x20060, 9], &[]);
    assert_eq!((outcome.err.as_str(), a0(&object)), ("some text", 0));
    let (outcome, object) = opened(8, "", 5, &[1, 0x20060, 4], &[]);
    assert_eq!((outcome.err.as_str(), a0(&object)), ("some", 0));
    let (outcome, object) = opened(0, "", 5, &[1, 0x20060, 9], &[]);
    assert_eq!(
        (outcome.err.as_str(), a0(&object)),
        ("", 9),
        "to the input: none is written"
    );
    let (_, object) = opened(4, "", 5, &[2, 0x20060, 9], &[]);
    assert_eq!(a0(&object), 9, "no such handle");
    let (_, object) = opened(4, "", 5, &[1, 0x21ffc, 9], &[]);
    assert_eq!(a0(&object), 9, "no such buffer");
    let (_, object) = opened(0, "abc", 6, &[1, 0x20060, 9], &[]);
    assert_eq!(a0(&object), 6, "so many are not read");
    assert!(
        dump(&object, 0)[192..].starts_with("61626365"),
        "{}",
        dump(&object, 0)
    );
    let (_, object) = opened(0, "abc", 6, &[1, 0x10000, 9], &[]);
    assert_eq!(a0(&object), 9, "code is not written");
    let (_, object) = opened(4, "", 9, &[1], &[]);
    assert_eq!(a0(&object), 0, "no terminal");
    let (_, object) = opened(4, "", 0x0c, &[1], &[]);
    assert_eq!(a0(&object), 0, "no length");
    let (_, object) = opened(4, "", 2, &[1], &[]);
    assert_eq!(a0(&object), 0, "closed");
    let (_, object) = opened(4, "", 0x0a, &[1, 0], &[]);
    assert_eq!(a0(&object), u64::MAX, "a console has no places");
    // SYS_ERRNO behind a handle that is none.
    let errno = [0x0130_0513, SLLI, EBREAK, SRAI]; // li a0,0x13
    let (_, object) = opened(4, "", 2, &[5], &errno);
    assert_eq!(a0(&object), 9);
}

#[test]
fn semihosting_exits() {
    let desk = Desk::new("semihosting-exit");
    for (operation, block_words, value) in [
        (0x18, [0x20026, 7], 7),
        (0x20, [0x20026, 9], 9),
        (0x18, [0x20023, 0], 1), // another reason is an error
    ] {
        program(&desk, &[SLLI, EBREAK, SRAI], &block(&block_words, b""));
        let options = format!("--semihosting --exit-status --x a0={operation} --x a1=0x20000");
        assert_eq!(desk.run(&format!("{RUN} {options}")).status, value);
    }
    // A block that cannot be read is no exit.
    let options = "--semihosting --x a0=0x18 --x a1=0x22000";
    let outcome = desk.run(&format!("{RUN} {options}"));
    assert!(
        outcome
            .out
            .starts_with("Stopped by a trap in step 4: cause 2"),
        "{}",
        outcome.out
    );
}

/// No clock: a run is the same each time.
#[test]
fn other_operations_are_answered_and_listed() {
    let (_, object) = semihosted(b"", "", 0x10, "0");
    assert_eq!(a0(&object), u64::MAX);
    let unserved = &object.at("calls").at("unserved").list()[0];
    assert_eq!(unserved.at("call").text(), "semihosting 0x10 SYS_CLOCK");
}

#[test]
fn a_breakpoint_alone_is_none_of_semihosting() {
    let desk = Desk::new("breakpoint");
    for words in [
        vec![EBREAK, SRAI],
        vec![SLLI, EBREAK, NOP],
        vec![NOP, EBREAK, SRAI],
        vec![SLLI, EBREAK],
    ] {
        program(&desk, &words, b"");
        let outcome = desk.run(&format!(
            "{RUN} --semihosting --expect ebreak --x a0=3 --x a1=0x20000"
        ));
        assert_eq!(outcome.status, 0, "{words:x?}: {}", outcome.out);
    }
}
