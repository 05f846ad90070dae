//! Operands for M and Zbb: the corners of 64 bits and of the 32 that a word form looks at, and numbers whose count is
//! drawn.

use formats::extensions::Encoding;
use formats::random::Random;

/// The corners; the last two are all other numbers.
pub const CORNERS: [&str; 7] = ["0", "1", "-1", "least", "greatest", "positive", "negative"];

fn bits(of_words: bool) -> u64 {
    if of_words {
        32
    } else {
        64
    }
}

/// The corner that an operand is at; of a word form's its lower half decides.
pub fn corner(operand: u64, of_words: bool) -> &'static str {
    let (number, least) = if of_words {
        (i64::from(operand as i32), i64::from(i32::MIN))
    } else {
        (operand as i64, i64::MIN)
    };
    match number {
        0 => "0",
        1 => "1",
        -1 => "-1",
        _ if number == least => "least",
        _ if number == !least => "greatest",
        2.. => "positive",
        _ => "negative",
    }
}

/// Whether the upper half is not what the sign of the lower half would make it.
pub fn dirty(operand: u64) -> bool {
    operand != operand as i32 as u64
}

/// An operand at any corner, each as often as the others.
pub fn operand(random: &mut Random, of_words: bool) -> u64 {
    let least = 1 << (bits(of_words) - 1);
    let number = match random.pick(&CORNERS) {
        "0" => 0,
        "1" => 1,
        "-1" => u64::MAX,
        "least" => least,
        "greatest" => least - 1,
        "positive" => positive(random, least - 1),
        _ => !positive(random, least - 1),
    };
    with_upper_half(random, number, of_words)
}

/// A number from 2 on, below the greatest: near an end, or of any length.
fn positive(random: &mut Random, greatest: u64) -> u64 {
    let any = random.word() & greatest;
    let length = random.below(u64::from(greatest.count_ones()) - 1);
    let any = (any >> length).clamp(2, greatest - 1);
    random.pick(&[2, 3, greatest - 1, any, any, any, any, any])
}

/// Of a word form half of the operands are clean; the others have any upper half, often all zeros or ones.
fn with_upper_half(random: &mut Random, number: u64, of_words: bool) -> u64 {
    let clean = number as i32 as u64;
    let any = random.word();
    let upper = random.pick(&[clean, clean, clean, clean, 0, u64::MAX, any, any]);
    if of_words {
        upper >> 32 << 32 | clean & 0xFFFF_FFFF
    } else {
        number
    }
}

/// An operand of which the count may come to any number up to that of all bits, each as often as the others.
pub fn counted(random: &mut Random, encoding: &Encoding) -> u64 {
    let bits = bits(encoding.of_words());
    let all = u64::MAX >> (64 - bits);
    let count = random.below(bits + 1);
    let any = random.word();
    let number = match encoding.name {
        "cpop" | "cpopw" => (0..count).fold(0, |set, _| set | random.one_bit(all & !set)),
        _ if count == bits => 0,
        "clz" | "clzw" => (any | 1 << 63) >> (64 - bits) >> count,
        _ => (any | 1) << count,
    };
    with_upper_half(random, number, encoding.of_words())
}

/// What the count of an operand comes to.
pub fn count(encoding: &Encoding, operand: u64) -> u32 {
    let half = operand as u32;
    match encoding.name {
        "clz" => operand.leading_zeros(),
        "ctz" => operand.trailing_zeros(),
        "cpop" => operand.count_ones(),
        "clzw" => half.leading_zeros(),
        "ctzw" => half.trailing_zeros(),
        _ => half.count_ones(),
    }
}

#[cfg(test)]
mod tests {
    use super::*;
    use formats::extensions::COUNTS;
    use std::collections::BTreeSet;

    #[test]
    fn each_number_has_its_corner() {
        let rows = [
            (0, "0", "0"),
            (1, "1", "1"),
            (2, "positive", "positive"),
            (-1, "-1", "-1"),
            (-2, "negative", "negative"),
            (i64::MIN, "least", "0"),
            (i64::MIN + 1, "negative", "1"),
            (i64::MAX, "greatest", "-1"),
            (i64::MAX - 1, "positive", "negative"),
            (i64::from(i32::MIN), "negative", "least"),
            (1 << 31, "positive", "least"),
            (i64::from(i32::MAX), "positive", "greatest"),
            (0x7_7FFF_FFFF, "positive", "greatest"),
        ];
        for (operand, whole, half) in rows {
            let operand = operand as u64;
            assert_eq!(
                (corner(operand, false), corner(operand, true)),
                (whole, half)
            );
        }
    }

    #[test]
    fn an_upper_half_is_clean_or_dirty() {
        for clean in [0, 1, u64::MAX, 0x7FFF_FFFF, 0xFFFF_FFFF_8000_0000] {
            assert!(!dirty(clean), "{clean:#x}");
        }
        for dirt in [1 << 32, 0x8000_0000, u64::MAX << 32, 1 << 63] {
            assert!(dirty(dirt), "{dirt:#x}");
        }
    }

    #[test]
    fn every_corner_is_drawn() {
        let mut random = Random::of(1, 0, 0);
        let mut halves = BTreeSet::new();
        let mut wholes = BTreeSet::new();
        for _ in 0..2000 {
            let half = operand(&mut random, true);
            halves.insert((corner(half, true), dirty(half)));
            wholes.insert(corner(operand(&mut random, false), false));
        }
        assert_eq!(halves.len(), 2 * CORNERS.len());
        assert_eq!(wholes.len(), CORNERS.len());
    }

    #[test]
    fn every_count_is_drawn() {
        let mut random = Random::of(1, 0, 1);
        for encoding in &COUNTS {
            let counts: BTreeSet<_> = (0..2000)
                .map(|_| count(encoding, counted(&mut random, encoding)))
                .collect();
            let most = if encoding.of_words() { 32 } else { 64 };
            assert_eq!(counts, (0..=most).collect(), "{}", encoding.name);
        }
    }
}
