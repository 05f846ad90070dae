//! M and what the hart has of Zbb, at the corners by hand and elsewhere by the laws of arithmetic.

mod common;
use common::*;

const OP: u32 = 0x33;
const OP_32: u32 = 0x3B;
const MIN: u64 = 1 << 63;
const MAX: u64 = MIN - 1;
const ONES: u64 = u64::MAX;
const MIN_32: u64 = 0xFFFF_FFFF_8000_0000;
const MAX_32: u64 = 0x7FFF_FFFF;

const MUL: u32 = r_word(OP, 0, 1, 3, 1, 2);
const MULH: u32 = r_word(OP, 1, 1, 3, 1, 2);
const MULHSU: u32 = r_word(OP, 2, 1, 3, 1, 2);
const MULHU: u32 = r_word(OP, 3, 1, 3, 1, 2);
const DIV: u32 = r_word(OP, 4, 1, 3, 1, 2);
const DIVU: u32 = r_word(OP, 5, 1, 3, 1, 2);
const REM: u32 = r_word(OP, 6, 1, 3, 1, 2);
const REMU: u32 = r_word(OP, 7, 1, 3, 1, 2);
const MULW: u32 = r_word(OP_32, 0, 1, 3, 1, 2);
const DIVW: u32 = r_word(OP_32, 4, 1, 3, 1, 2);
const DIVUW: u32 = r_word(OP_32, 5, 1, 3, 1, 2);
const REMW: u32 = r_word(OP_32, 6, 1, 3, 1, 2);
const REMUW: u32 = r_word(OP_32, 7, 1, 3, 1, 2);
const CLZ: u32 = i_word(0x13, 1, 3, 1, 0x600);
const CTZ: u32 = i_word(0x13, 1, 3, 1, 0x601);
const CPOP: u32 = i_word(0x13, 1, 3, 1, 0x602);
const CLZW: u32 = i_word(0x1B, 1, 3, 1, 0x600);
const CTZW: u32 = i_word(0x1B, 1, 3, 1, 0x601);
const CPOPW: u32 = i_word(0x1B, 1, 3, 1, 0x602);
const MINIMUM: u32 = r_word(OP, 4, 5, 3, 1, 2);
const MINU: u32 = r_word(OP, 5, 5, 3, 1, 2);
const MAXIMUM: u32 = r_word(OP, 6, 5, 3, 1, 2);
const MAXU: u32 = r_word(OP, 7, 5, 3, 1, 2);

const WORD_FORMS: [u32; 8] = [MULW, DIVW, DIVUW, REMW, REMUW, CLZW, CTZW, CPOPW];

/// 0, 1, -1, the ends of 32 and of 64 bits with their neighbours, and lower halves like these under dirty upper halves.
const CORNERS: [u64; 25] = [
    0,
    1,
    2,
    ONES,
    ONES - 1,
    MIN,
    MIN + 1,
    MAX,
    MAX - 1,
    MAX_32,
    MAX_32 - 1,
    MIN_32,
    MIN_32 + 1,
    MAX_32 + 1,
    MAX_32 + 2,
    0xFFFF_FFFE,
    0xFFFF_FFFF,
    1 << 32,
    ONES << 32,
    0xFFFF_FFFF_0000_0001,
    0xABCD_EF01_0000_0000,
    0xABCD_EF01_FFFF_FFFF,
    0x1234_5678_8000_0000,
    0x1234_5678_7FFF_FFFF,
    0x8000_0000_0000_0003,
];

/// Every two corners, and as many pairs of numbers of all lengths.
fn pairs() -> Vec<(u64, u64)> {
    let mut numbers = Numbers(0xA3);
    let mut any = || {
        let word = numbers.next();
        let shifted = word >> (numbers.next() % 64);
        [shifted, shifted.wrapping_neg()][(word & 1) as usize]
    };
    let corners = CORNERS
        .iter()
        .flat_map(|a| CORNERS.map(|b| (*a, b)))
        .collect::<Vec<_>>();
    let others = corners.iter().map(|_| (any(), any())).collect();
    [corners, others].concat()
}

/// Holds what each row says: the word, x1, x2 and x3.
#[track_caller]
fn check(rows: &[(u32, u64, u64, u64)]) {
    for (word, a, b, expected) in rows {
        assert_eq!(
            result(*word, *a, *b),
            *expected,
            "{word:#010x} of {a:#x}, {b:#x}"
        );
    }
}

/// The manual's table of division by zero and overflow.
#[test]
fn division_by_zero_and_overflow() {
    for a in CORNERS {
        let half = a as i32 as u64;
        check(&[
            (DIV, a, 0, ONES),
            (DIVU, a, 0, ONES),
            (REM, a, 0, a),
            (REMU, a, 0, a),
        ]);
        for zero in [0, ONES << 32, 1 << 32] {
            check(&[
                (DIVW, a, zero, ONES),
                (DIVUW, a, zero, ONES),
                (REMW, a, zero, half),
                (REMUW, a, zero, half),
            ]);
        }
    }
    check(&[(DIV, MIN, ONES, MIN), (REM, MIN, ONES, 0)]);
    for (least, minus_one) in [(MIN_32, ONES), (1 << 31, 0xFFFF_FFFF)] {
        check(&[
            (DIVW, least, minus_one, MIN_32),
            (REMW, least, minus_one, 0),
        ]);
    }
    // In 64 bits the least number of 32 divides without overflow, and unsigned division has none.
    check(&[
        (DIV, MIN_32, ONES, 1 << 31),
        (DIVU, MIN, ONES, 0),
        (REMU, MIN, ONES, MIN),
        (DIVUW, MIN_32, ONES, 0),
        (REMUW, MIN_32, ONES, MIN_32),
    ]);
}

#[test]
fn quotients_are_rounded_towards_zero() {
    let minus = |number: u64| number.wrapping_neg();
    check(&[
        (DIV, 7, 2, 3),
        (DIV, minus(7), 2, minus(3)),
        (DIV, 7, minus(2), minus(3)),
        (DIV, minus(7), minus(2), 3),
        (REM, 7, 2, 1),
        (REM, minus(7), 2, minus(1)),
        (REM, 7, minus(2), 1),
        (REM, minus(7), minus(2), minus(1)),
        (DIVU, minus(7), 2, (ONES - 6) / 2),
        (REMU, minus(7), 2, 1),
        (DIVW, minus(7), 2, minus(3)),
        (REMW, minus(7), 2, minus(1)),
        (DIVW, 7, minus(2), minus(3)),
        (REMW, 7, minus(2), 1),
        (DIVUW, minus(7), 2, 0x7FFF_FFFC),
        (REMUW, minus(7), 2, 1),
        // Unsigned quotients and remainders with bit 31 set are sign-extended too.
        (DIVUW, 0xFFFF_FFFF, 1, ONES),
        (DIVUW, 0x8000_0000, 1, MIN_32),
        (REMUW, 0x8000_0000, 0x8000_0001, MIN_32),
    ]);
}

/// Quotient times divisor plus remainder is the dividend; the remainder is nearer to 0 than the divisor and on the
/// dividend's side of it.
#[test]
fn division_gives_its_dividend_back() {
    for (a, b) in pairs() {
        for (quotient, remainder, bits, signed) in [
            (DIV, REM, 64, true),
            (DIVU, REMU, 64, false),
            (DIVW, REMW, 32, true),
            (DIVUW, REMUW, 32, false),
        ] {
            let (q, r) = (result(quotient, a, b), result(remainder, a, b));
            let number = |word: u64| match (bits, signed) {
                (64, true) => i128::from(word as i64),
                (64, false) => i128::from(word),
                (_, true) => i128::from(word as i32),
                _ => i128::from(word as u32),
            };
            let (dividend, divisor) = (number(a), number(b));
            let (q, r) = (number(q), number(r));
            let overflow = signed && divisor == -1 && dividend == -(1 << (bits - 1));
            if divisor != 0 && !overflow {
                assert_eq!(q * divisor + r, dividend, "{a:#x} by {b:#x}");
                assert!(r.abs() < divisor.abs(), "{a:#x} by {b:#x}");
                assert!(r == 0 || (r < 0) == (dividend < 0), "{a:#x} by {b:#x}");
            }
        }
    }
}

#[test]
fn products_at_the_corners() {
    check(&[
        (MUL, ONES, ONES, 1),
        (MUL, MIN, ONES, MIN),
        (MUL, 1 << 32, 1 << 32, 0),
        (MUL, 0x1_0000_0001, 0x1_0000_0001, 0x2_0000_0001),
        (MULH, ONES, ONES, 0),
        (MULH, ONES, 1, ONES),
        (MULH, MIN, MIN, 1 << 62),
        (MULH, MIN, ONES, 0),
        (MULH, MIN, MAX, 0xC000_0000_0000_0000),
        (MULH, MAX, MAX, 0x3FFF_FFFF_FFFF_FFFF),
        (MULHU, ONES, ONES, ONES - 1),
        (MULHU, MIN, 2, 1),
        (MULHU, MIN, MIN, 1 << 62),
        (MULHU, ONES, 1, 0),
        (MULHSU, ONES, ONES, ONES),
        (MULHSU, ONES, 1, ONES),
        (MULHSU, 1, ONES, 0),
        (MULHSU, MIN, ONES, MIN),
        (MULHSU, MAX, ONES, MAX - 1),
        (MULHSU, 2, MIN, 1),
        (MULHSU, MIN, 2, ONES),
        (MULW, 0x10000, 0x8000, MIN_32),
        (MULW, 0x10000, 0x10000, 0),
        (MULW, MAX_32, MAX_32, 1),
        (MULW, 0xFFFF_FFFF, 0x1_0000_0001, ONES),
    ]);
}

/// The product of two unsigned numbers as its upper and lower half, by adding the one as the other's bits say.
fn long_product(a: u64, b: u64) -> (u64, u64) {
    let (mut upper, mut lower) = (0_u64, 0_u64);
    for bit in (0..64).rev() {
        upper = upper << 1 | lower >> 63;
        lower <<= 1;
        if b >> bit & 1 == 1 {
            let (sum, carry) = lower.overflowing_add(a);
            lower = sum;
            upper += u64::from(carry);
        }
    }
    (upper, lower)
}

/// A number with its top bit set counts 2^64 less where it is signed: so much the other one falls out of the upper half.
#[test]
fn products_are_those_of_long_multiplication() {
    for (a, b) in pairs() {
        let (upper, lower) = long_product(a, b);
        let of_a = if a & MIN != 0 { b } else { 0 };
        let of_b = if b & MIN != 0 { a } else { 0 };
        check(&[
            (MUL, a, b, lower),
            (MULHU, a, b, upper),
            (MULHSU, a, b, upper.wrapping_sub(of_a)),
            (MULH, a, b, upper.wrapping_sub(of_a).wrapping_sub(of_b)),
            (MULW, a, b, lower as i32 as u64),
        ]);
    }
}

/// The counts of a number's low bits, one bit after the other: leading and trailing zeros, and bits that are set.
fn counted(number: u64, bits: u64) -> [u64; 3] {
    let set = |bit: &u64| number >> bit & 1 == 1;
    let leading = (0..bits).rev().take_while(|bit| !set(bit)).count();
    let trailing = (0..bits).take_while(|bit| !set(bit)).count();
    let all = (0..bits).filter(|bit| set(bit)).count();
    [leading, trailing, all].map(|count| count as u64)
}

#[test]
fn counts() {
    check(&[
        (CLZ, 0, 9, 64),
        (CTZ, 0, 9, 64),
        (CPOP, 0, 9, 0),
        (CPOP, ONES, 9, 64),
        (CLZW, ONES << 32, 9, 32),
        (CTZW, ONES << 32, 9, 32),
        (CPOPW, ONES << 32, 9, 0),
        (CPOPW, ONES, 9, 32),
    ]);
    let bits = (0..64).map(|bit| 1 << bit);
    let below = (0..64).map(|bit| (1 << bit) - 1);
    let from = (0..64).map(|bit| ONES << bit);
    let others = pairs().into_iter().map(|(a, _)| a);
    for number in bits.chain(below).chain(from).chain(others) {
        let [leading, trailing, set] = counted(number, 64);
        let [leading_32, trailing_32, set_32] = counted(number, 32);
        check(&[
            (CLZ, number, 9, leading),
            (CTZ, number, 9, trailing),
            (CPOP, number, 9, set),
            (CLZW, number, 9, leading_32),
            (CTZW, number, 9, trailing_32),
            (CPOPW, number, 9, set_32),
        ]);
    }
}

#[test]
fn minimum_and_maximum() {
    check(&[
        (MINIMUM, ONES, 1, ONES),
        (MAXIMUM, ONES, 1, 1),
        (MINU, ONES, 1, 1),
        (MAXU, ONES, 1, ONES),
        (MINIMUM, MIN, MAX, MIN),
        (MAXIMUM, MIN, MAX, MAX),
        (MINU, MIN, MAX, MAX),
        (MAXU, MIN, MAX, MIN),
    ]);
    for (a, b) in pairs() {
        // Turning the top bit makes the signed order of the unsigned one.
        let least = |a: u64, b: u64| if a < b { a } else { b };
        let signed = least(a ^ MIN, b ^ MIN) ^ MIN;
        let other = |one: u64| if one == a { b } else { a };
        check(&[
            (MINU, a, b, least(a, b)),
            (MAXU, a, b, other(least(a, b))),
            (MINIMUM, a, b, signed),
            (MAXIMUM, a, b, other(signed)),
        ]);
    }
}

#[test]
fn word_forms_look_at_the_lower_halves_and_sign_extend() {
    for (a, b) in pairs() {
        for word in WORD_FORMS {
            let clean = result(word, a as u32 as u64, b as u32 as u64);
            assert_eq!(clean, clean as i32 as u64, "{word:#010x} of {a:#x}, {b:#x}");
            check(&[(word, a, b, clean)]);
        }
    }
}

/// None of them needs a mode or traps, a source may be the destination, and x0 stays 0.
#[test]
fn every_mode_and_register() {
    let all = [
        MUL, MULH, MULHSU, MULHU, DIV, DIVU, REM, REMU, MULW, DIVW, DIVUW, REMW, REMUW, CLZ, CTZ,
        CPOP, CLZW, CTZW, CPOPW, MINIMUM, MINU, MAXIMUM, MAXU,
    ];
    const RD: u32 = 31 << 7;
    for word in all {
        let expected = result(word, MIN, 0);
        for mode in [USER, SUPERVISOR, MACHINE] {
            for rd in [0, 1, 2, 31] {
                let mut w = world(mode);
                w.h.x[1] = MIN;
                w.passes(word & !RD | rd << 7);
                let written = if rd == 0 { 0 } else { expected };
                assert_eq!(w.h.x[rd as usize], written, "{word:#010x} to x{rd}");
            }
        }
    }
}
