//! Any line at all: it has a word whose text gives that word again, or a column within the line and a reason that says what would be right.

use formats::random::Random;
use sporhulma::BASE;

/// Operands of all kinds, right and wrong, and at the ends of every reach and beyond.
#[rustfmt::skip]
const OPERANDS: [&str; 66] = [
    "a0", "zero", "ra", "t0", "x5", "x31", "x32", "fp", "b1", "", " ", "0", "1", "-1", "15", "16", "31", "32", "63", "64", "255", "2047", "2048", "-2048",
    "-2049", "4095", "4096", "0xfffff", "0x100000", "0xffffffffffffffff", "0x8000000000000000", "-0x8000000000000000", "0x10000000000000000", "0b102", "007",
    "0x80000000", "0x80000002", "0x80000001", "0x80000ffe", "0x80001000", "0x800ffffe", "0x80100000", "0x7ffff000", "0x7fffeffe", ".", ".+8", ".-4096", ".+4095",
    ".-", ".+0x", "8(sp)", "(a0)", "2048(a1)", "8()", "8(a0", "8)a0(", "(", "mstatus", "0xfff", "iorw", "rw", "unknown", "wr", "i MISC_MEM", "\u{e4}\u{20ac}", "a0 a1",
];

/// Operands that many instructions take.
const PLAIN: [&str; 8] = ["a0", "zero", "ra", "t0", "x31", "1", "8(sp)", ".+8"];

const JOINTS: [&str; 10] = [",", ",", ",", ",", ",", ",", " , ", "\t,", ", ", " "];

fn one<'a>(random: &mut Random, choices: &[&'a str]) -> &'a str {
    choices[random.below(choices.len() as u64) as usize]
}

fn line(random: &mut Random, mnemonics: &[&str]) -> String {
    let number = random.below(33).to_string();
    let mut line = one(random, mnemonics).replace('N', &number) + " ";
    for place in 0..random.below(5) {
        if place > 0 {
            line += one(random, &JOINTS);
        }
        line += match random.below(4) {
            0 => one(random, &OPERANDS),
            _ => one(random, &PLAIN),
        };
    }
    line
}

#[test]
fn any_line_has_a_word_or_a_reason() {
    let mnemonics: Vec<&str> = asm::mnemonics()
        .chain(["", "#", "addii", "\u{e4}"])
        .collect();
    let (mut taken, mut refused) = (0, 0);
    for number in 0..300_000 {
        let random = &mut Random::of(1, 0xA5, number);
        let line = line(random, &mnemonics);
        match asm::word(&line, BASE) {
            Ok(None) => {}
            Ok(Some(word)) => {
                let text = disasm::text(word, BASE);
                assert_eq!(asm::word(&text, BASE), Ok(Some(word)), "{line}");
                taken += 1;
            }
            Err(wrong) => {
                let columns = 1..=line.chars().count() + 1;
                assert!(columns.contains(&wrong.column), "{line}: {wrong}");
                // What is said where nothing says why.
                assert!(!wrong.what.starts_with("no word reads"), "{line}: {wrong}");
                refused += 1;
            }
        }
    }
    assert!(taken > 10_000 && refused > 100_000, "{taken} {refused}");
}
