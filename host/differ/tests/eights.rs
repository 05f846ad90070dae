//! Writers and readers with one thing wrong, each planted in a wrapper of the proved ones: the eights and the words' round trip must
//! find it.

use differ::eights::make::make;
use differ::eights::soak::Eights;
use differ::eights::{agrees, round, Numbers, Scribe};
use differ::simulator::{Proved, Second};
use sporhulma::number::{FAMILY, FIRST, IMMEDIATE, OPERATION, RD, RS1, RS2, SECOND};

/// Within so many eights each slip must be found.
const EIGHTS: u64 = 200_000;

/// What an impostor writes for these numbers, where it does not do as the proved one.
type Slip = fn(&Numbers, &mut u32) -> Option<u64>;

struct Impostor(Slip);

impl Scribe for Impostor {
    fn read(&self, word: u32, numbers: &mut Numbers) -> u64 {
        Proved.read(word, numbers)
    }

    fn write(&self, numbers: &Numbers, word: &mut u32) -> u64 {
        self.0(numbers, word).unwrap_or_else(|| Proved.write(numbers, word))
    }
}

/// Writes other numbers than those given.
fn instead(numbers: &Numbers, word: &mut u32, change: fn(&mut Numbers)) -> Option<u64> {
    let mut other = *numbers;
    change(&mut other);
    Some(Proved.write(&other, word))
}

/// Refuses what is taken where a test holds.
fn refusing(refused: bool) -> Option<u64> {
    refused.then_some(5)
}

#[rustfmt::skip]
const SLIPS: [(&str, Slip); 22] = [
    ("an odd distance of a branch", |n, w| instead(n, w, |n| if n[FAMILY] == 5 { n[IMMEDIATE] &= !1 })),
    ("an odd distance of a jump", |n, w| instead(n, w, |n| if n[FAMILY] == 3 { n[IMMEDIATE] &= !1 })),
    ("4,096 for a branch", |n, w| instead(n, w, |n| if n[FAMILY] == 5 && n[IMMEDIATE] == 4096 { n[IMMEDIATE] = 4096u64.wrapping_neg() })),
    ("-4,096 refused", |n, _| refusing(n[FAMILY] == 5 && n[IMMEDIATE] == 4096u64.wrapping_neg())),
    ("a jump with a branch's reach", |n, _| refusing(n[FAMILY] == 3 && (n[IMMEDIATE] as i64).unsigned_abs() > 4096)),
    ("a word's shift by 32", |n, w| instead(n, w, |n| if n[FAMILY] == 9 && n[OPERATION] != 0 { n[IMMEDIATE] &= 31 })),
    ("a shift by 64", |n, w| instead(n, w, |n| if n[FAMILY] == 8 && n[OPERATION] == 5 { n[IMMEDIATE] &= 63 })),
    ("the upper half of an immediate", |n, w| instead(n, w, |n| n[IMMEDIATE] = n[IMMEDIATE] as i32 as u64)),
    ("LUI's low bits", |n, w| instead(n, w, |n| if n[FAMILY] == 1 { n[IMMEDIATE] &= !0xFFF })),
    ("a count with an immediate", |n, w| instead(n, w, |n| if n[OPERATION] & 0x3001 == 0x3001 { n[IMMEDIATE] = 0 })),
    ("register 32", |n, w| instead(n, w, |n| n[RS1] &= 31)),
    ("register 256", |n, w| instead(n, w, |n| n[RD] = n[RD] as u8 as u64)),
    ("a register that the family does not have", |n, w| instead(n, w, |n| if n[FAMILY] == 8 { n[RS2] = 0 })),
    ("FENCE's fields dropped", |n, w| instead(n, w, |n| if n[FAMILY] == 12 { n[SECOND] = 0 })),
    ("aq and rl exchanged", |n, w| instead(n, w, |n| if n[FAMILY] == 21 { n.swap(FIRST, SECOND) })),
    ("aq and rl of any number", |n, w| instead(n, w, |n| if n[FAMILY] == 21 { n[FIRST] = u64::from(n[FIRST] != 0) })),
    ("a CSR of 13 bits", |n, w| instead(n, w, |n| if n[FAMILY] == 17 { n[FIRST] &= 0xFFF })),
    ("a push as MOP.RR", |n, w| instead(n, w, |n| if *n == [23, 7, 0, 0, 1, 0, 0, 0] { *n = [19, 0, 0, 0, 1, 0, 0, 0] })),
    ("a read of ssp as MOP.R", |n, w| instead(n, w, |n| if n[..2] == [22, 28] && n[RS1] == 0 && n[RD] != 0 { n[..2].copy_from_slice(&[18, 0]) })),
    ("REMU for REM", |n, w| instead(n, w, |n| if n[FAMILY] == 10 && n[OPERATION] == 0x106 { n[OPERATION] = 0x107 })),
    ("family 0 as the word 0", |n, w| (n[FAMILY] == 0).then(|| { *w = 0; 0 })),
    ("a word changed though refused", |n, w| {
        let refused = Proved.write(n, w);
        if refused != 0 { *w = 0 }
        Some(refused)
    }),
];

#[test]
fn each_slip_is_found() {
    for (name, slip) in SLIPS {
        let mut eights = Eights::new(Impostor(slip), 1);
        while eights.failures.is_empty() {
            assert!(eights.made < EIGHTS, "not found: {name}");
            eights.next();
        }
        let line = &eights.failures[0];
        assert!(line.starts_with("eight ") && !line.contains('\n'), "{line}");
    }
}

/// The second writer alone finds each slip too.
#[test]
fn each_slip_differs_from_the_second_writer() {
    for (name, slip) in SLIPS {
        let found = (0..EIGHTS).any(|number| !agrees(&Impostor(slip), &make(1, number).1));
        assert!(found, "not found: {name}");
    }
}

#[test]
fn the_proved_one_has_none_and_the_eights_have_everything() {
    let mut eights = Eights::new(Proved, 1);
    (0..100_000).for_each(|_| eights.next());
    assert_eq!(eights.failures, Vec::<String>::new());
    assert_eq!(eights.complaints(), Vec::<String>::new());
}

/// The second simulator's own reader and writer.
#[test]
fn the_second_one_has_none() {
    let mut eights = Eights::new(Second, 2);
    (0..100_000).for_each(|_| eights.next());
    assert_eq!(eights.failures, Vec::<String>::new());
    for word in (0..1 << 20).map(|n: u32| n.wrapping_mul(0x9E37_79B1) | 3) {
        assert_eq!(round(&Second, word, second::family(word)), None);
        assert_eq!(round(&Proved, word, second::family(word)), None);
    }
}

#[test]
fn an_eight_is_made_again() {
    assert_eq!(make(3, 5), make(3, 5));
    assert_ne!(make(3, 5), make(3, 6));
    assert_ne!(make(3, 5), make(4, 5));
}

/// A reader that leaves what was there where it refuses, and one that takes a wrong family.
struct Reader(fn(u32, &mut Numbers) -> u64);

impl Scribe for Reader {
    fn read(&self, word: u32, numbers: &mut Numbers) -> u64 {
        self.0(word, numbers)
    }

    fn write(&self, numbers: &Numbers, word: &mut u32) -> u64 {
        Proved.write(numbers, word)
    }
}

#[test]
fn a_word_that_is_lost_on_its_way_is_found() {
    let (legal, illegal) = (0x02A0_0513, 0);
    for (word, family) in [(legal, 8), (illegal, 0)] {
        assert_eq!(round(&Proved, word, family), None);
        assert!(round(&Proved, word, family + 1).is_some());
    }
    let leaves: fn(u32, &mut Numbers) -> u64 = |word, numbers| {
        let before = *numbers;
        let refused = Proved.read(word, numbers);
        if refused != 0 {
            *numbers = before;
        }
        refused
    };
    assert!(round(&Reader(leaves), illegal, 0).is_some());
    let cuts: fn(u32, &mut Numbers) -> u64 = |word, numbers| {
        let refused = Proved.read(word, numbers);
        numbers[IMMEDIATE] &= 0x1F;
        refused
    };
    assert!(round(&Reader(cuts), legal, 8).is_some());
    let loses = Impostor(|_, _| Some(0));
    assert!(round(&loses, legal, 8).is_some());
}
