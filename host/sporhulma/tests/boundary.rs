//! The boundary as callers see it: from Rust through the wrapper, and from C through the header.

use programs::{c_compiler, started};
use sporhulma::{family, load_hex, run, step, step_word, word, Answer, Hart, Loaded, BASE};
use std::path::{Path, PathBuf};

/// addi a0, zero, 42
const ADDI: u32 = 0x02A0_0513;
const TAKEN: Answer = Answer {
    refusal: 0,
    count: 1,
    trapped: false,
    cause: 0,
};

fn memory(words: &[u32]) -> Vec<u8> {
    let mut memory: Vec<u8> = words.iter().flat_map(|w| w.to_le_bytes()).collect();
    memory.resize(4096, 0);
    memory
}

#[test]
fn a_step_fetches_and_a_given_word_does_not() {
    let (mut fetched, mut given) = (Hart::fresh(), Hart::fresh());
    assert_eq!(step(&mut fetched, &mut memory(&[ADDI]), &[]), TAKEN);
    assert_eq!(step_word(&mut given, &mut memory(&[0]), &[], ADDI), TAKEN);
    assert_eq!(fetched, given);
    assert_eq!((fetched.x[10], fetched.rest[word::PC]), (42, BASE + 4));
}

#[test]
fn a_run_counts_the_trapping_step() {
    let mut hart = Hart::fresh();
    let answer = run(&mut hart, &mut memory(&[ADDI, ADDI]), &[], 1_000_000);
    let trapped = Answer {
        refusal: 0,
        count: 3,
        trapped: true,
        cause: 2,
    };
    assert_eq!(answer, trapped);
    assert_eq!(hart.rest[word::MEPC], BASE + 8);
}

/// Each refusal, with the hart and memory as they were.
#[test]
fn a_refusal_changes_nothing() {
    let mut elp = Hart::fresh();
    elp.rest[word::ELP] = 2;
    let fresh = Hart::fresh();
    let refused: [(Hart, usize, &[u64], u64, u64); 5] = [
        (elp, 4096, &[], 1, 1),
        (
            Hart {
                x: [1; 32],
                ..fresh
            },
            4096,
            &[],
            1,
            1,
        ),
        (fresh, 4095, &[], 1, 2),
        (fresh, 4096, &[0], 1, 3),
        (fresh, 4096, &[], 1_000_001, 4),
    ];
    for (given, length, map, budget, number) in refused {
        let (mut hart, mut bytes) = (given, vec![7; length]);
        let answer = run(&mut hart, &mut bytes, map, budget);
        let expected = Answer {
            refusal: number,
            count: 0,
            trapped: false,
            cause: 0,
        };
        assert_eq!((answer, hart), (expected, given));
        assert_eq!(bytes, vec![7; length]);
    }
}

#[test]
fn a_word_has_its_family() {
    assert_eq!((family(ADDI), family(0), family(0xCE10_4073)), (8, 0, 19));
    // Those of M and Zbb count with the opcode that they stand in: clz, clzw, mul, mulw.
    let added = [0x6005_9513, 0x6005_951B, 0x02C5_8533, 0x02C5_853B];
    assert_eq!(added.map(family), [8, 9, 10, 11]);
}

/// The upper address of memory's first byte, `ADDI` at offset 16, a start address, and the end.
const TEXT: &str = ":020000048000 7A\n:04001000 1305A002 32\r\n:04000005 80000010 67\n:00000001 FF";

/// The text without the blanks that show its parts.
fn hex(text: &str) -> Vec<u8> {
    text.replace(' ', "").into_bytes()
}

#[test]
fn a_text_is_loaded() {
    let mut memory = vec![7; 4096];
    let taken = Loaded {
        refusal: 0,
        line: 0,
        start: Some(BASE + 16),
    };
    assert_eq!(load_hex(&mut memory, &hex(TEXT)), taken);
    let mut expected = vec![7; 4096];
    expected[16..20].copy_from_slice(&ADDI.to_le_bytes());
    assert_eq!(memory, expected);
}

/// Memory of a wrong length, a wrong checksum in line 2, no end, and no bytes at all: nothing is changed, and no start is handed back.
#[test]
fn a_refused_text_changes_nothing() {
    let refused = [
        (4095, TEXT.to_string(), 2, 0),
        (4096, TEXT.replace("32", "33"), 6, 2),
        (4096, TEXT.replace(":00000001 FF", ""), 6, 4),
        (4096, String::new(), 6, 1),
    ];
    for (length, text, refusal, line) in refused {
        let mut memory = vec![7; length];
        let expected = Loaded {
            refusal,
            line,
            start: None,
        };
        assert_eq!(load_hex(&mut memory, &hex(&text)), expected);
        assert_eq!(memory, vec![7; length]);
    }
}

/// What a program of examples/c prints, built by the C compiler with the header and one of the libraries.
fn told(name: &str, library: &str) -> String {
    let root = Path::new(env!("CARGO_MANIFEST_DIR")).join("../..");
    let program = PathBuf::from(env!("CARGO_TARGET_TMPDIR")).join(name);
    let built = c_compiler()
        .args(["-Wall", "-Wextra", "-Werror", "-pedantic", "-std=c11", "-I"])
        .arg(root.join("include"))
        .arg(root.join(format!("examples/c/{name}.c")))
        .arg(root.join(format!("target/staticlib/lib{library}.a")))
        .arg("-o")
        .arg(&program)
        .output()
        .expect("the C compiler starts");
    assert!(
        built.status.success(),
        "{}",
        String::from_utf8_lossy(&built.stderr)
    );
    let ran = started(&program).output().expect("the program starts");
    String::from_utf8_lossy(&ran.stdout).into_owned()
}

#[test]
fn the_header_serves_c() {
    let step = "refusal 0, count 1, a0 42, pc 0x80000004\nrefusal 1, count 0, pc 0x80000004\n";
    assert_eq!(told("step", "sporhulma"), step);
    let word = "refusal 0, word 0x80b50063\nrefusal 0, family 5, distance -4096\nrefusal 5, word 0x80b50063\n";
    assert_eq!(told("word", "scribe"), word);
}
