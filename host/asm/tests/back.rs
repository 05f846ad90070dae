//! The disassembler's text of a word gives that word again: every instruction of every family at its corners, and many random words.

use differ::eights::shape::{Register, Shape, SHAPES};
use differ::eights::Numbers;
use formats::random::Random;
use sporhulma::number::{FAMILY, FIRST, IMMEDIATE, OPERATION, RD, RS2, SECOND};
use sporhulma::{family, write, BASE};
use std::collections::BTreeSet;

/// Addresses of which jumps and branches also go past either end.
const PLACES: [u64; 3] = [BASE, 0, 0xffff_ffff_ffff_fffc];

/// Sees that the text of a word at `pc` gives the word again.
fn back(word: u32, pc: u64) {
    let text = disasm::text(word, pc);
    assert_eq!(asm::word(&text, pc), Ok(Some(word)), "{text} at {pc:#x}");
}

/// The numbers that an operand is tried with: those that aliases and the shadow stack's words depend on, and the ends.
fn registers(register: Register) -> &'static [u64] {
    match register {
        Register::None => &[0],
        Register::Any => &[0, 1, 2, 5, 10, 31],
        Register::NotZero => &[1, 2, 5, 10, 31],
        Register::Link => &[1, 5],
    }
}

fn immediates(shape: &Shape) -> BTreeSet<i64> {
    let (low, high, by) = shape.immediate;
    let wanted = [low, low + by, -by, -1, 0, 1, by, 255, high - by, high];
    let inside = |n: &i64| (low..=high).contains(n) && (n - low) % by == 0;
    wanted.into_iter().filter(inside).collect()
}

/// What is left: both ends, and what has a name of its own.
fn left(most: u64) -> BTreeSet<u64> {
    let wanted = [0, 1, 3, 0x11, 0x300, 0xC00, most / 2, most];
    wanted.into_iter().filter(|n| *n <= most).collect()
}

/// The corners of a row of include/sporhulma.h's table.
fn corners(shape: &Shape) -> Vec<Numbers> {
    let mut all = vec![[shape.family, 0, 0, 0, 0, 0, 0, 0]];
    let mut each = |at: usize, choices: Vec<u64>| {
        let with = |numbers: &Numbers, choice: u64| {
            let mut numbers = *numbers;
            numbers[at] = choice;
            numbers
        };
        let choices = &choices;
        let made = all
            .iter()
            .flat_map(|numbers| choices.iter().map(move |&choice| with(numbers, choice)));
        all = made.collect();
    };
    each(OPERATION, shape.operations.to_vec());
    for at in RD..=RS2 {
        each(at, registers(shape.registers[at - RD]).to_vec());
    }
    let immediates = immediates(shape).into_iter().map(|n| n as u64);
    each(IMMEDIATE, immediates.collect());
    for at in FIRST..=SECOND {
        each(at, left(shape.left[at - FIRST]).into_iter().collect());
    }
    all
}

#[test]
fn every_instruction_at_its_corners() {
    let (mut families, mut tried) = ([0; 24], 0);
    for numbers in SHAPES.iter().flat_map(corners) {
        let mut word = 0;
        // Some MOP forms are words of another family, which are tried as that.
        if write(&numbers, &mut word) == 0 {
            PLACES.iter().for_each(|&pc| back(word, pc));
            families[numbers[FAMILY] as usize] += 1;
            tried += 1;
        }
    }
    assert!(families[1..].iter().all(|&count| count > 0), "{families:?}");
    assert!(tried > 20_000, "only {tried}");
}

/// Every mnemonic of the table is one that a corner's text has, or a branch with its operands exchanged.
#[test]
fn every_mnemonic_is_met() {
    let mut met = BTreeSet::new();
    for numbers in SHAPES.iter().flat_map(corners) {
        let mut word = 0;
        if write(&numbers, &mut word) == 0 {
            let text = disasm::text(word, BASE);
            met.insert(text.split(' ').next().unwrap_or("").to_string());
        }
    }
    let exchanged = ["bgt", "ble", "bgtu", "bleu", ".word"];
    for name in asm::mnemonics() {
        let shown = name.replace('N', "0");
        assert!(met.contains(&shown) || exchanged.contains(&name), "{name}");
    }
}

#[test]
fn three_hundred_thousand_random_legal_words() {
    let mut random = Random::new(23);
    let (mut legal, mut illegal) = (0, 0);
    while legal < 300_000 {
        let made = random.word();
        let (word, pc) = (made as u32 | 3, random.word() & !3);
        match family(word) {
            0 if illegal < 100_000 => {
                back(word, pc);
                illegal += 1;
            }
            0 => {}
            _ => {
                back(word, pc);
                legal += 1;
            }
        }
    }
    assert_eq!(illegal, 100_000);
}

#[test]
fn a_text_is_its_lines() {
    let program =
        "li a0,5 # five\n\n  # and down\r\naddi a0,a0,-1\r\nbnez a0,0x80000004\nj .\n.word 0";
    let words = asm::words(program, BASE).unwrap();
    assert_eq!(
        words,
        [0x0050_0513, 0xfff5_0513, 0xfe05_1ee3, 0x0000_006f, 0]
    );
    let texts: Vec<String> = (0..)
        .zip(&words)
        .map(|(place, &word)| disasm::text(word, BASE + 4 * place))
        .collect();
    assert_eq!(asm::words(&texts.join("\n"), BASE), Ok(words));
}
