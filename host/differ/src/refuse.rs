//! The refusal table's rules, each broken alone and next to it the nearest value that is accepted.

use crate::case::{Call, Case};
use crate::state::XLENS;
use crate::world::{lengthen, ENTRIES, NUMBERS};
use formats::csr::field::*;
use formats::random::Random;
use formats::ECALL;
use sporhulma::word::*;
use sporhulma::MOST_STEPS;

/// Sets what a rule speaks of to a value that breaks it or, if not `broken`, to the nearest that keeps it.
/// Both draw the same numbers, so that the two cases are equal in all else.
type Rule = fn(&mut Random, &mut Case, broken: bool);

/// The rules of refusals 1 to 3; those that have many ways to be broken stand more than once.
const RULES: [Rule; 16] = [
    register_zero,
    forbidden_bit,
    forbidden_bit,
    forbidden_bit,
    forbidden_bit,
    status_field,
    mask_field,
    mode,
    memory_length,
    memory_length,
    map_odd,
    map_long,
    map_number,
    map_number,
    map_order,
    map_order,
];

/// Applies one rule, broken or kept.
pub fn one(random: &mut Random, case: &mut Case, broken: bool) {
    random.pick(&RULES)(random, case, broken);
}

/// Breaks two rules: the lowest number that applies is given.
pub fn two(random: &mut Random, case: &mut Case) {
    one(random, case, true);
    one(random, case, true);
}

/// A run's budget: 1,000,000 is accepted. Mostly the program's first word traps, so that the accepted run is short.
pub fn budget(random: &mut Random, case: &mut Case, place: u64, broken: bool) {
    if random.chance(97) {
        case.poke(place, &ECALL.to_le_bytes());
    }
    let over = random.pick(&[MOST_STEPS + 1, MOST_STEPS + 1, u64::MAX, 1 << 32]);
    case.call = Call::Run(if broken { over } else { MOST_STEPS });
}

fn register_zero(random: &mut Random, case: &mut Case, broken: bool) {
    let bit = random.one_bit(u64::MAX);
    case.hart.x[0] = if broken { bit } else { 0 };
}

/// A word of the hart with one bit that it never holds.
fn forbidden_bit(random: &mut Random, case: &mut Case, broken: bool) {
    const ALLOWED: [(usize, u64); 14] = [
        (PC, !3),
        (MODE, 3),
        (ELP, 1),
        (SSP, !7),
        (STVEC, !3),
        (SENVCFG, LPE | SSE | PMM),
        (SEPC, !3),
        (SATP, SV39),
        (MSTATUS, MSTATUS_FIELDS | XLENS),
        (MEDELEG, MEDELEG_FIELDS),
        (MTVEC, !3),
        (MENVCFG, LPE | SSE | PMM),
        (MEPC, !3),
        (MSECCFG, MLPE | PMM),
    ];
    let (word, allowed) = random.pick(&ALLOWED);
    let bit = random.one_bit(!allowed);
    if broken {
        case.hart.rest[word] |= bit;
    }
}

/// mstatus with MPP 2, or UXL or SXL other than 2; kept, MPP has a neighbour of 2.
fn status_field(random: &mut Random, case: &mut Case, broken: bool) {
    let at = random.pick(&[11, 32, 34]);
    let wrong = if at == 11 { 2 } else { random.pick(&[0, 1, 3]) };
    let right = if at == 11 { random.pick(&[1, 3]) } else { 2 };
    let value = if broken { wrong } else { right };
    let status = &mut case.hart.rest[MSTATUS];
    *status = *status & !(3 << at) | value << at;
}

/// PMM 1 in one of its three registers; kept, it is 0 or 2.
fn mask_field(random: &mut Random, case: &mut Case, broken: bool) {
    let word = random.pick(&[MENVCFG, SENVCFG, MSECCFG]);
    let right = random.pick(&[0, 2]);
    let value = if broken { 1 } else { right };
    case.hart.rest[word] = case.hart.rest[word] & !PMM | value << PMM_SHIFT;
}

fn mode(random: &mut Random, case: &mut Case, broken: bool) {
    let right = random.pick(&[1, 3]);
    case.hart.rest[MODE] = if broken { 2 } else { right };
}

/// Lengths that are refused beside the nearest that is accepted. The largest are seldom: they cost.
fn memory_length(random: &mut Random, case: &mut Case, broken: bool) {
    const SMALL: [(usize, usize); 7] = [
        (0, 4096),
        (1, 4096),
        (4095, 4096),
        (4097, 4096),
        (8191, 8192),
        (8193, 8192),
        (12_289, 12_288),
    ];
    const LARGE: [(usize, usize); 3] = [
        (0x10_1000, 0x10_0000),
        (0x10_0001, 0x10_0000),
        (0xF_FFFF, 0x10_0000),
    ];
    let (wrong, right) = if random.chance(5) {
        random.pick(&LARGE)
    } else {
        random.pick(&SMALL)
    };
    case.mem.resize(if broken { wrong } else { right }, 0x5A);
}

fn map_odd(random: &mut Random, case: &mut Case, broken: bool) {
    let shorter = random.chance(50);
    if !broken {
        return;
    }
    if shorter && !case.map.is_empty() {
        case.map.pop();
    } else {
        case.map.push(NUMBERS - 1);
    }
}

/// 65 entries beside 64.
fn map_long(random: &mut Random, case: &mut Case, broken: bool) {
    case.map.truncate(4);
    let entries = if broken { ENTRIES + 1 } else { ENTRIES };
    lengthen(random, case, entries);
}

/// A page number of 2^27 or more beside 2^27 - 1, in the last entry.
fn map_number(random: &mut Random, case: &mut Case, broken: bool) {
    let over = random.pick(&[NUMBERS, NUMBERS, NUMBERS + 1, 1 << 52, u64::MAX]);
    lengthen(random, case, 1);
    let last = case.map.len() / 2 * 2 - 2;
    case.map[last] = if broken { over } else { NUMBERS - 1 };
}

/// An entry with the number of the one before it, or a lower one, beside a number that rises by one.
fn map_order(random: &mut Random, case: &mut Case, broken: bool) {
    let falls = random.chance(50);
    case.map.truncate(4);
    lengthen(random, case, 2);
    let before = case.map[0].clamp(1, NUMBERS - 2);
    case.map[0] = before;
    case.map[2] = match (broken, falls) {
        (false, _) => before + 1,
        (true, false) => before,
        (true, true) => before - 1,
    };
}

#[cfg(test)]
mod tests {
    use super::*;
    use crate::case::PAGE;
    use crate::simulator::{Second, Simulator};

    /// Each rule is refused with its number when broken and accepted when kept.
    #[test]
    fn a_rule_broken_is_refused_and_kept_is_accepted() {
        for (at, rule) in RULES.iter().enumerate() {
            let number = match at {
                0..=7 => 1,
                8..=9 => 2,
                _ => 3,
            };
            for draw in 0..200 {
                assert_eq!(refusal(*rule, draw, true), number, "rule {at}, draw {draw}");
                assert_eq!(
                    refusal(*rule, draw, false),
                    0,
                    "rule {at}, draw {draw}, kept"
                );
            }
        }
    }

    fn refusal(rule: Rule, draw: u64, broken: bool) -> u64 {
        let mut random = Random::of(1, 2, draw);
        let mut case = Case::empty();
        case.fill(PAGE as usize, 1, 1);
        case.map.extend([5, 0xCF, 9, 0xCF]);
        rule(&mut random, &mut case, broken);
        Second
            .call(case.call, &mut case.hart, &mut case.mem, &case.map)
            .refusal
    }

    #[test]
    fn a_budget_broken_is_refusal_4() {
        for (broken, number) in [(true, 4), (false, 0)] {
            let mut random = Random::of(1, 3, 0);
            let mut case = Case::empty();
            case.fill(PAGE as usize, 0x73, 0);
            budget(&mut random, &mut case, 0, broken);
            let answer = Second.call(case.call, &mut case.hart, &mut case.mem, &case.map);
            assert_eq!(answer.refusal, number);
        }
    }
}
