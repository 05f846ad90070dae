//! The decoder's verdict, held against a table of the manuals' encodings.

mod common;
use common::*;
use second::family;

/// Fixed bits, their value and the family, first match first. The masks are those of the manuals' listings.
const ENCODINGS: [(u32, u32, u64); 117] = [
    (0x7F, 0x37, 1),
    (0x7F, 0x17, 2),
    (0x7F, 0x6F, 3),
    (0x707F, 0x0067, 4),
    (0x707F, 0x0063, 5),
    (0x707F, 0x1063, 5),
    (0x707F, 0x4063, 5),
    (0x707F, 0x5063, 5),
    (0x707F, 0x6063, 5),
    (0x707F, 0x7063, 5),
    (0x707F, 0x0003, 6),
    (0x707F, 0x1003, 6),
    (0x707F, 0x2003, 6),
    (0x707F, 0x3003, 6),
    (0x707F, 0x4003, 6),
    (0x707F, 0x5003, 6),
    (0x707F, 0x6003, 6),
    (0x707F, 0x0023, 7),
    (0x707F, 0x1023, 7),
    (0x707F, 0x2023, 7),
    (0x707F, 0x3023, 7),
    (0x707F, 0x0013, 8),
    (0x707F, 0x2013, 8),
    (0x707F, 0x3013, 8),
    (0x707F, 0x4013, 8),
    (0x707F, 0x6013, 8),
    (0x707F, 0x7013, 8),
    (0xFC00_707F, 0x0000_1013, 8),
    (0xFC00_707F, 0x0000_5013, 8),
    (0xFC00_707F, 0x4000_5013, 8),
    (0x707F, 0x001B, 9),
    (0xFE00_707F, 0x0000_101B, 9),
    (0xFE00_707F, 0x0000_501B, 9),
    (0xFE00_707F, 0x4000_501B, 9),
    (0xFE00_707F, 0x0000_0033, 10),
    (0xFE00_707F, 0x4000_0033, 10),
    (0xFE00_707F, 0x0000_1033, 10),
    (0xFE00_707F, 0x0000_2033, 10),
    (0xFE00_707F, 0x0000_3033, 10),
    (0xFE00_707F, 0x0000_4033, 10),
    (0xFE00_707F, 0x0000_5033, 10),
    (0xFE00_707F, 0x4000_5033, 10),
    (0xFE00_707F, 0x0000_6033, 10),
    (0xFE00_707F, 0x0000_7033, 10),
    (0xFE00_707F, 0x0000_003B, 11),
    (0xFE00_707F, 0x4000_003B, 11),
    (0xFE00_707F, 0x0000_103B, 11),
    (0xFE00_707F, 0x0000_503B, 11),
    (0xFE00_707F, 0x4000_503B, 11),
    (0x707F, 0x000F, 12),
    (!0, 0x0000_0073, 13),
    (!0, 0x0010_0073, 14),
    (!0, 0x1020_0073, 15),
    (!0, 0x3020_0073, 16),
    (0x707F, 0x1073, 17),
    (0x707F, 0x2073, 17),
    (0x707F, 0x3073, 17),
    (0x707F, 0x5073, 17),
    (0x707F, 0x6073, 17),
    (0x707F, 0x7073, 17),
    (!0, 0xCDC0_4073, 22),
    (0xFFFF_F07F, 0xCDC0_4073, 18),
    (!0, 0xCE10_4073, 19),
    (!0, 0xCE50_4073, 19),
    (!0, 0xCDC0_C073, 20),
    (!0, 0xCDC2_C073, 20),
    (0xF800_707F, 0x4800_202F, 21),
    (0xF800_707F, 0x4800_302F, 21),
    // MOP.R: 1-00--0111-- and MOP.RR: 1-00--1, with the free bits of n left out.
    (0xB3C0_707F, 0x81C0_4073, 22),
    (0xB200_707F, 0x8200_4073, 23),
    // M and Zbb: M in OP; MIN, MINU, MAX, MAXU; M in OP-32; CLZ, CTZ, CPOP and their W forms.
    (0xFE00_707F, 0x0200_0033, 10),
    (0xFE00_707F, 0x0200_1033, 10),
    (0xFE00_707F, 0x0200_2033, 10),
    (0xFE00_707F, 0x0200_3033, 10),
    (0xFE00_707F, 0x0200_4033, 10),
    (0xFE00_707F, 0x0200_5033, 10),
    (0xFE00_707F, 0x0200_6033, 10),
    (0xFE00_707F, 0x0200_7033, 10),
    (0xFE00_707F, 0x0A00_4033, 10),
    (0xFE00_707F, 0x0A00_5033, 10),
    (0xFE00_707F, 0x0A00_6033, 10),
    (0xFE00_707F, 0x0A00_7033, 10),
    (0xFE00_707F, 0x0200_003B, 11),
    (0xFE00_707F, 0x0200_403B, 11),
    (0xFE00_707F, 0x0200_503B, 11),
    (0xFE00_707F, 0x0200_603B, 11),
    (0xFE00_707F, 0x0200_703B, 11),
    (0xFFF0_707F, 0x6000_1013, 8),
    (0xFFF0_707F, 0x6010_1013, 8),
    (0xFFF0_707F, 0x6020_1013, 8),
    (0xFFF0_707F, 0x6000_101B, 9),
    (0xFFF0_707F, 0x6010_101B, 9),
    (0xFFF0_707F, 0x6020_101B, 9),
    // Words that this hart does not have (WFI, SFENCE.VMA, FENCE.I, compressed): more seeds.
    (!0, 0x1050_0073, 0),
    (!0, 0x1200_0073, 0),
    (0x707F, 0x100F, 0),
    (0x3, 0x1, 0),
    // The rest of Zbb: SEXT.B, SEXT.H, ZEXT.H, ORC.B, REV8, ROL, ROLW, ROR, RORI, XNOR, ORN, ANDN.
    (0xFFF0_707F, 0x6040_1013, 0),
    (0xFFF0_707F, 0x6050_1013, 0),
    (0xFFF0_707F, 0x0800_403B, 0),
    (0xFFF0_707F, 0x2870_5013, 0),
    (0xFFF0_707F, 0x6B80_5013, 0),
    (0xFE00_707F, 0x6000_1033, 0),
    (0xFE00_707F, 0x6000_103B, 0),
    (0xFE00_707F, 0x6000_5033, 0),
    (0xFC00_707F, 0x6000_5013, 0),
    (0xFE00_707F, 0x4000_4033, 0),
    (0xFE00_707F, 0x4000_6033, 0),
    (0xFE00_707F, 0x4000_7033, 0),
    // Of Zba, Zbc and Zbs: SH1ADD, ADD.UW, SLLI.UW, CLMUL, CLMULR, CLMULH, BCLR, BSETI.
    (0xFE00_707F, 0x2000_2033, 0),
    (0xFE00_707F, 0x0800_003B, 0),
    (0xFC00_707F, 0x0800_101B, 0),
    (0xFE00_707F, 0x0A00_1033, 0),
    (0xFE00_707F, 0x0A00_2033, 0),
    (0xFE00_707F, 0x0A00_3033, 0),
    (0xFE00_707F, 0x4800_1033, 0),
    (0xFC00_707F, 0x2800_1013, 0),
];

fn expected(word: u32) -> u64 {
    let row = ENCODINGS
        .iter()
        .find(|(mask, value, _)| word & mask == *value);
    row.map_or(0, |row| row.2)
}

/// For each word of the table: the word, its neighbours by one and two bits, and random other bits.
#[test]
fn near_misses() {
    let mut numbers = Numbers(0xDEC0DE);
    for (mask, value, _) in ENCODINGS {
        for _ in 0..60 {
            let word = value | numbers.next() as u32 & !mask;
            assert_eq!(family(word), expected(word), "{word:#010x}");
            for (first, second) in (0..32).flat_map(|i| (0..=i).map(move |k| (i, k))) {
                let near = word ^ (1 << first | 1 << second);
                assert_eq!(family(near), expected(near), "{near:#010x}");
            }
        }
    }
}

#[test]
fn random_words() {
    let mut numbers = Numbers(0xC0FFEE);
    for _ in 0..1_000_000 {
        let word = numbers.next() as u32;
        assert_eq!(family(word), expected(word), "{word:#010x}");
        assert_eq!(family(word | 3), expected(word | 3), "{:#010x}", word | 3);
    }
}

/// Each SYSTEM word with funct3 4: 32 MOP.R and 8 MOP.RR numbers, and no other upper bits.
#[test]
fn may_be_operations_are_counted() {
    let (mut one, mut two) = (0, 0);
    for upper in 0..4_096_u32 {
        match family(upper << 20 | 3 << 15 | 0x4073) {
            22 => one += 1,
            23 => two += 1,
            other => assert_eq!(other, 0),
        }
    }
    assert_eq!((one, two), (32, 8 * 32));
}

#[test]
fn an_illegal_word_is_its_own_tval() {
    let listed = ENCODINGS.iter().filter(|row| row.2 == 0).map(|row| row.1);
    for word in [0, u32::MAX].into_iter().chain(listed) {
        for mode in [USER, SUPERVISOR, MACHINE] {
            world(mode).traps(word, 2, u64::from(word));
        }
    }
}

#[test]
fn fence_does_nothing_with_any_fields() {
    for word in [0x0000_000F, 0x8330_000F, 0xFFFF_8F8F] {
        let mut w = world(USER);
        w.h.x[31] = 5;
        let mut after = w.clone();
        after.h.pc += 4;
        w.passes(word);
        assert_eq!(w, after, "{word:#x}");
    }
}
