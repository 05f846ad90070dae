//! The table of include/sporhulma.h that says which eight numbers can be written, held against the proved writer: each of its rows
//! at both ends of every column, and every family and operation that it does not have.

use formats::number::unsigned;
use sporhulma::number::{FAMILY, FIRST, IMMEDIATE, OPERATION, RD, RS1, RS2, SECOND};
use sporhulma::{family, read, write};
use std::ops::RangeInclusive;

type Numbers = [u64; 8];

/// The numbers that one column takes: an interval, by a step.
#[derive(Clone, Debug)]
struct Span {
    range: RangeInclusive<i64>,
    by: i64,
}

impl Span {
    fn of(range: RangeInclusive<i64>) -> Span {
        Span { range, by: 1 }
    }

    fn holds(&self, number: u64) -> bool {
        let number = number as i64;
        self.range.contains(&number) && (number - self.range.start()) % self.by == 0
    }

    /// Both ends, their neighbours, and what a cut of the number would make of them.
    fn tried(&self) -> Vec<u64> {
        let (low, high) = (*self.range.start(), *self.range.end());
        let near = [low, high].into_iter();
        let near = near.flat_map(|end| [-self.by, -1, 0, 1, self.by].map(|step| end + step));
        let numbers = near.chain([0, i64::MIN, i64::MAX]).map(|n| n as u64);
        let cut = |n: u64| [n, n ^ 1 << 32, n ^ 1 << 63, n.wrapping_add(1 << 12)];
        numbers.flat_map(cut).collect()
    }
}

/// A row of the table: a family, its operations, and what each of the other six numbers may be.
#[derive(Clone, Debug)]
struct Row {
    family: u64,
    operations: Vec<u64>,
    spans: [Span; 6],
}

impl Row {
    /// Numbers of this row: registers where it has them, and every other one 0.
    fn legal(&self, operation: u64) -> Numbers {
        let mut numbers = [0; 8];
        numbers[FAMILY] = self.family;
        numbers[OPERATION] = operation;
        for (at, span) in (RD..=RS2).zip(&self.spans) {
            numbers[at] = *span.range.end() as u64;
        }
        numbers
    }
}

fn number(text: &str) -> u64 {
    unsigned(text).unwrap_or_else(|_| panic!("'{text}' is no number"))
}

/// `0 BEQ, 1 BNE`, or `n, 0 to 31`, or `0`.
fn operations(text: &str) -> Vec<u64> {
    if let Some((_, range)) = text.split_once(", 0 to ") {
        return (0..=number(range)).collect();
    }
    let names = text
        .split(',')
        .filter_map(|one| one.split_whitespace().next());
    names.map(number).collect()
}

/// A register's column: absent, any, `not 0`, or `1 or 5`.
fn register(text: &str, name: &str) -> Span {
    let found = text.split_once(name).map(|(_, rest)| rest);
    match found {
        None => Span::of(0..=0),
        Some(rest) if rest.starts_with(", not 0") => Span::of(1..=31),
        Some(rest) if rest.starts_with(": 1 or 5") => Span {
            range: 1..=5,
            by: 4,
        },
        Some(_) => Span::of(0..=31),
    }
}

/// `-2048 to 2047`, `-4096 to 4094, by 2`, or nothing.
fn immediate(text: &str) -> Span {
    let Some((low, rest)) = text.split_once(" to ") else {
        assert_eq!(text, "");
        return Span::of(0..=0);
    };
    let (high, by) = rest.split_once(", by ").unwrap_or((rest, "1"));
    let value = |text: &str| match text {
        "-2^31" => -(1 << 31),
        "2^31 - 4096" => (1 << 31) - 4096,
        other => other.parse::<i64>().expect("a bound"),
    };
    Span {
        range: value(low)..=value(high),
        by: value(by),
    }
}

/// What is left: `pred` and `succ`, `CSR`, `aq` and `rl`.
fn left(text: &str) -> Span {
    match text {
        "" => Span::of(0..=0),
        "pred" | "succ" => Span::of(0..=15),
        "CSR" => Span::of(0..=4095),
        "aq" | "rl" => Span::of(0..=1),
        other => panic!("'{other}' is nothing that is left"),
    }
}

/// The table, read by the columns that its head has.
fn table() -> Vec<Row> {
    let header = include_str!("../../../include/sporhulma.h");
    let (_, text) = header.split_once(" *  family ").expect("the table's head");
    let mut lines = text.lines();
    let head = format!(" *  family {}", lines.next().expect("the head"));
    let names = ["operation", "registers", "immediate", "first", "second"];
    let starts = names.map(|name| head.find(name).expect("a column"));
    let mut rows: Vec<Row> = Vec::new();
    for line in lines.take_while(|line| line.trim() != "*") {
        let cell = |from: usize, to: usize| line.get(from..to.min(line.len())).unwrap_or("").trim();
        let column = |at: usize| {
            cell(
                starts[at],
                starts.get(at + 1).copied().unwrap_or(line.len()),
            )
        };
        let family = cell(2, starts[0]).split_whitespace().next().map(number);
        let family = family.unwrap_or_else(|| rows.last().expect("a row before").family);
        let registers = column(1);
        rows.push(Row {
            family,
            operations: operations(column(0)),
            spans: [
                register(registers, "rd"),
                register(registers, "rs1"),
                register(registers, "rs2"),
                immediate(column(2)),
                left(column(3)),
                left(column(4)),
            ],
        });
    }
    rows
}

/// The word of these numbers, having seen that they are read from it, or that a refusal left the word alone.
fn written(numbers: &Numbers) -> Option<u32> {
    let (mut word, mut back) = (0xDEAD_BEEF, [7; 8]);
    match write(numbers, &mut word) {
        0 => {
            assert_eq!((read(word, &mut back), back), (0, *numbers));
            assert_eq!(family(word), numbers[FAMILY]);
            Some(word)
        }
        refusal => {
            assert_eq!((refusal, word), (5, 0xDEAD_BEEF), "{numbers:x?}");
            None
        }
    }
}

/// The header's (b) and (c): MOP forms whose words are a read of ssp, a pop-check or a push.
fn of_another_family(numbers: &Numbers) -> bool {
    let link = |at: usize| matches!(numbers[at], 1 | 5);
    match (numbers[FAMILY], numbers[OPERATION]) {
        (22, 28) => (numbers[RS1] == 0 && numbers[RD] != 0) || (numbers[RD] == 0 && link(RS1)),
        (23, 7) => numbers[RD] == 0 && numbers[RS1] == 0 && link(RS2),
        _ => false,
    }
}

#[test]
fn the_table_has_every_family_and_operation() {
    let rows = table();
    for family in 0..=24 {
        let row = rows.iter().find(|row| row.family == family);
        let listed: Vec<u64> = rows
            .iter()
            .filter(|row| row.family == family)
            .flat_map(|row| row.operations.clone())
            .collect();
        assert_eq!(listed.is_empty(), family == 0 || family == 24);
        for operation in (0..0x1_0000).chain([1 << 32, 1 << 63, u64::MAX]) {
            let mut numbers = row.map_or([0; 8], |row| row.legal(operation));
            numbers[FAMILY] = family;
            numbers[OPERATION] = operation;
            let taken = written(&numbers).is_some();
            assert_eq!(taken, listed.contains(&operation), "{numbers:x?}");
        }
    }
}

#[test]
fn each_row_takes_what_it_says_and_nothing_else() {
    let mut tried = 0;
    for row in table() {
        for &operation in &row.operations {
            let legal = row.legal(operation);
            for (at, span) in (RD..=SECOND).zip(&row.spans) {
                for value in span.tried() {
                    let mut numbers = legal;
                    numbers[at] = value;
                    let listed = span.holds(value) && !of_another_family(&numbers);
                    assert_eq!(written(&numbers).is_some(), listed, "{numbers:x?}");
                    tried += 1;
                }
            }
        }
    }
    assert!(tried > 40_000, "{tried} tried");
}

/// The words that a MOP form's fields would give, and that are a push, a pop-check or a read of ssp.
#[test]
fn a_mop_form_of_another_family_is_refused() {
    let numbers = |family, operation, rd, rs1, rs2| [family, operation, rd, rs1, rs2, 0, 0, 0];
    for link in [1, 5] {
        assert_eq!(written(&numbers(23, 7, 0, 0, link)), None);
        assert_eq!(written(&numbers(22, 28, 0, link, 0)), None);
    }
    assert_eq!(written(&numbers(22, 28, 31, 0, 0)), None);
    let near = [
        (numbers(19, 0, 0, 0, 1), 0xCE10_4073),
        (numbers(20, 0, 0, 5, 0), 0xCDC2_C073),
        (numbers(18, 0, 31, 0, 0), 0xCDC0_4FF3),
        (numbers(22, 28, 0, 0, 0), 0xCDC0_4073),
        (numbers(22, 28, 0, 2, 0), 0xCDC1_4073),
        (numbers(23, 7, 0, 0, 2), 0xCE20_4073),
        (numbers(23, 7, 1, 0, 1), 0xCE10_40F3),
    ];
    for (numbers, word) in near {
        assert_eq!(written(&numbers), Some(word), "{numbers:x?}");
    }
}

/// Words from the manuals' listings, with what a C programmer would write for them.
#[test]
fn words_by_hand() {
    let minus = |n: i64| n as u64;
    let by_hand: [(Numbers, u32); 9] = [
        ([8, 0, 10, 10, 0, minus(-1), 0, 0], 0xFFF5_0513), // addi a0, a0, -1
        ([5, 0, 0, 10, 11, minus(-4096), 0, 0], 0x80B5_0063), // beq a0, a1, -4096
        ([3, 0, 1, 0, 0, minus(-4), 0, 0], 0xFFDF_F0EF),   // jal ra, -4
        ([10, 0x2000, 10, 11, 12, 0, 0, 0], 0x40C5_8533),  // sub a0, a1, a2
        ([10, 0x100, 10, 11, 12, 0, 0, 0], 0x02C5_8533),   // mul a0, a1, a2
        ([8, 0x3009, 10, 11, 0, 0, 0, 0], 0x6015_9513),    // ctz a0, a1
        ([12, 8, 0, 0, 0, 0, 3, 3], 0x8330_000F),          // fence.tso
        ([17, 5, 10, 31, 0, 0, 0x300, 0], 0x300F_D573),    // csrrwi a0, mstatus, 31
        ([21, 0x2403, 10, 11, 12, 0, 1, 0], 0x4CC5_B52F),  // ssamoswap.d.aq a0, a2, (a1)
    ];
    for (numbers, word) in by_hand {
        assert_eq!(written(&numbers), Some(word), "{numbers:x?}");
    }
    let mut left = [7; 8];
    assert_eq!((read(0, &mut left), left), (5, [0; 8]));
}

/// The indices are those of the header's enumeration.
#[test]
fn the_indices_are_the_headers() {
    let header = include_str!("../../../include/sporhulma.h");
    let (_, text) = header
        .split_once("enum sporhulma_instruction {")
        .expect("the enumeration");
    let (text, _) = text.split_once('}').expect("its end");
    let names: Vec<&str> = text.split(',').map(str::trim).collect();
    let places = [FAMILY, OPERATION, RD, RS1, RS2, IMMEDIATE, FIRST, SECOND];
    let expected = [
        "FAMILY",
        "OPERATION",
        "RD",
        "RS1",
        "RS2",
        "IMMEDIATE",
        "FIRST",
        "SECOND",
    ];
    assert_eq!(places, [0, 1, 2, 3, 4, 5, 6, 7]);
    assert_eq!(names, expected.map(|name| format!("SPORHULMA_{name}")));
}

/// The decode cases, whose words come from the GNU assembler and whose numbers were made from the manuals' listings.
#[test]
fn the_decode_cases_are_read_and_written() {
    let cases = include_str!("../../../crates/test_cases/data/decode.txt");
    let mut seen = 0;
    for line in cases.lines().filter(|line| !line.starts_with('#')) {
        let (case, _) = line.split_once('#').expect("a case has its text");
        let (word, wanted) = case.split_once('=').expect("a case has an answer");
        let hex = |text: &str| u64::from_str_radix(text, 16).expect("a number");
        let (word, wanted) = (hex(word.trim()) as u32, wanted.split_whitespace().map(hex));
        let wanted: [u64; 9] = wanted.collect::<Vec<_>>().try_into().expect("nine numbers");
        let mut numbers = [7; 8];
        let refusal = read(word, &mut numbers);
        assert_eq!(
            (refusal == 0, &numbers[..]),
            (wanted[FAMILY] != 0, &wanted[..8]),
            "{line}"
        );
        assert_eq!(
            u64::from(written(&numbers).unwrap_or(0)),
            wanted[8],
            "{line}"
        );
        seen += 1;
    }
    assert!(seen > 900, "{seen} cases");
}
