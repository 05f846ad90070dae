//! Likely slips in M and Zbb, each planted in a wrapper of `second`: the steps must find it, and the runs too. And that each
//! word beside those of M and Zbb that the hart does not have is found where it is legal.

use differ::again::word_at;
use differ::case::Call;
use differ::simulator::{Second, Simulator};
use differ::soak::{Failure, Soak};
use formats::extensions::{absent, added, Encoding, ABSENT};
use sporhulma::word::PC;
use sporhulma::{Answer, Hart, MOST_STEPS};

/// Within so many steps each slip must be found, and within so many runs.
const STEPS: u64 = 50_000;
const RUNS: u64 = 4_000;

/// What rd gets of the two sources' values in place of what is right; none if that is not touched.
type Wrong = fn(u64, u64) -> Option<u64>;

/// `second` with a slip in one instruction. A run is taken step by step, so that each of its words is known.
struct Slip(&'static str, Wrong);

impl Slip {
    fn step(&self, call: Call, hart: &mut Hart, mem: &mut [u8], map: &[u64]) -> Answer {
        let before = *hart;
        let instruction = instruction(call, hart, mem, map);
        let answer = Second.call(call, hart, mem, map);
        if answer.refusal != 0 || answer.trapped {
            return answer;
        }
        if let Some((word, _)) = instruction.filter(|(_, one)| one.name == self.0) {
            let [rd, rs1, rs2] = [7, 15, 20].map(|at| (word >> at) as usize & 31);
            if let Some(wrong) = self.1(before.x[rs1], before.x[rs2]).filter(|_| rd != 0) {
                hart.x[rd] = wrong;
            }
        }
        answer
    }
}

/// The word of a step and the instruction of M or Zbb that it is.
fn instruction(
    call: Call,
    hart: &Hart,
    mem: &[u8],
    map: &[u64],
) -> Option<(u32, &'static Encoding)> {
    let word = match call {
        Call::StepWord(word) => word,
        _ => word_at(hart, mem, map)?,
    };
    Some((word, added(word)?))
}

impl Simulator for Slip {
    fn call(&self, call: Call, hart: &mut Hart, mem: &mut [u8], map: &[u64]) -> Answer {
        let Call::Run(budget) = call else {
            return self.step(call, hart, mem, map);
        };
        let nothing = Second.call(Call::Run(0), hart, mem, map);
        if nothing.refusal != 0 || budget > MOST_STEPS {
            return Second.call(call, hart, mem, map);
        }
        for count in 1..=budget {
            let answer = self.step(Call::Step, hart, mem, map);
            if answer.trapped {
                return Answer { count, ..answer };
            }
        }
        Answer {
            count: budget,
            ..nothing
        }
    }
}

/// The first of `cases` on which the impostor and `second` differ.
fn found<S: Simulator>(
    impostor: S,
    mut cases: std::ops::Range<u64>,
    take: fn(&mut Soak<S, Second>, u64),
) -> Option<Failure> {
    let mut soak = Soak::new(impostor, Second, 1);
    cases.find_map(|number| {
        take(&mut soak, number);
        soak.failures.pop()
    })
}

/// Both the steps and the runs find the slip, and the step is one of its instruction.
fn each_is_found(slips: &[(&str, &'static str, Wrong)]) {
    for (what, name, wrong) in slips {
        let failure = found(Slip(name, *wrong), 0..STEPS, Soak::step)
            .unwrap_or_else(|| panic!("{what}: not found within {STEPS} steps"));
        let case = &failure.case;
        let met = instruction(case.call, &case.hart, &case.mem, &case.map);
        assert_eq!(met.map(|(_, one)| one.name), Some(*name), "{what}");
        let run = found(Slip(name, *wrong), 0..RUNS, Soak::run);
        assert!(run.is_some(), "{what}: not found within {RUNS} runs");
    }
}

fn signed(number: u64) -> i128 {
    i128::from(number as i64)
}

fn upper(a: i128, b: i128) -> Option<u64> {
    Some((a.wrapping_mul(b) >> 64) as u64)
}

#[test]
fn products() {
    each_is_found(&[
        ("MULH of the unsigned", "mulh", |a, b| {
            upper(a.into(), b.into())
        }),
        ("MULHU of the signed", "mulhu", |a, b| {
            upper(signed(a), signed(b))
        }),
        ("MULHSU's operands exchanged", "mulhsu", |a, b| {
            upper(a.into(), signed(b))
        }),
        ("MULHSU of two signed numbers", "mulhsu", |a, b| {
            upper(signed(a), signed(b))
        }),
        ("MULHSU of two unsigned numbers", "mulhsu", |a, b| {
            upper(a.into(), b.into())
        }),
        ("MULW not sign-extended", "mulw", |a, b| {
            Some(a.wrapping_mul(b) & 0xFFFF_FFFF)
        }),
        ("MULW of all bits", "mulw", |a, b| Some(a.wrapping_mul(b))),
    ]);
}

/// The quotient rounded down, and the remainder that it leaves, which has the divisor's sign.
fn rounded_down(a: i64, b: i64) -> Option<(u64, u64)> {
    let (quotient, remainder) = (a.checked_div(b)?, a.checked_rem(b)?);
    let over = i64::from(remainder != 0 && (remainder < 0) != (b < 0));
    Some(((quotient - over) as u64, (remainder + over * b) as u64))
}

fn halves_rounded_down(a: u64, b: u64) -> Option<(u64, u64)> {
    rounded_down((a as i32).into(), (b as i32).into())
}

#[test]
fn rounding() {
    each_is_found(&[
        ("DIV rounded down", "div", |a, b| {
            Some(rounded_down(a as i64, b as i64)?.0)
        }),
        ("REM with the divisor's sign", "rem", |a, b| {
            Some(rounded_down(a as i64, b as i64)?.1)
        }),
        ("DIVW rounded down", "divw", |a, b| {
            Some(halves_rounded_down(a, b)?.0 as i32 as u64)
        }),
        ("REMW with the divisor's sign", "remw", |a, b| {
            Some(halves_rounded_down(a, b)?.1)
        }),
        ("DIVU of the signed", "divu", |a, b| {
            Some((a as i64).checked_div(b as i64)? as u64)
        }),
        ("REMU of the signed", "remu", |a, b| {
            Some((a as i64).checked_rem(b as i64)? as u64)
        }),
    ]);
}

#[test]
fn division_by_zero() {
    let zero: Wrong = |_, b| (b == 0).then_some(0);
    let zero_half: Wrong = |_, b| (b as u32 == 0).then_some(0);
    each_is_found(&[
        ("DIV by zero giving 0", "div", zero),
        ("DIVU by zero giving 0", "divu", zero),
        ("REM by zero giving 0", "rem", zero),
        ("REMU by zero giving 0", "remu", zero),
        ("DIVW by zero giving 0", "divw", zero_half),
        ("DIVUW by zero giving 0", "divuw", zero_half),
        ("REMW by zero giving 0", "remw", zero_half),
        ("REMUW by zero giving 0", "remuw", zero_half),
        ("DIVUW by zero giving 32 ones", "divuw", |_, b| {
            (b as u32 == 0).then_some(0xFFFF_FFFF)
        }),
        ("REMUW by zero not sign-extended", "remuw", |a, b| {
            (b as u32 == 0).then_some(a & 0xFFFF_FFFF)
        }),
        ("REMW by zero giving all of the dividend", "remw", |a, b| {
            (b as u32 == 0).then_some(a)
        }),
        (
            "DIVW by a zero with a dirty half giving 0",
            "divw",
            |_, b| (b as u32 == 0 && b != 0).then_some(0),
        ),
    ]);
}

fn overflows(a: u64, b: u64) -> bool {
    a == 1 << 63 && b == u64::MAX
}

fn halves_overflow(a: u64, b: u64) -> bool {
    a as u32 == 1 << 31 && b as u32 == u32::MAX
}

#[test]
fn overflow_and_sign_extension() {
    each_is_found(&[
        ("DIV of the least by -1 giving 0", "div", |a, b| {
            overflows(a, b).then_some(0)
        }),
        ("REM of the least by -1 giving it", "rem", |a, b| {
            overflows(a, b).then_some(a)
        }),
        ("DIVW of the least by -1 giving 0", "divw", |a, b| {
            halves_overflow(a, b).then_some(0)
        }),
        ("DIVW of the least by -1 giving 2^31", "divw", |a, b| {
            halves_overflow(a, b).then_some(1 << 31)
        }),
        ("REMW of the least by -1 giving it", "remw", |a, b| {
            halves_overflow(a, b).then_some(!0 << 31)
        }),
        ("DIVUW not sign-extended", "divuw", |a, b| {
            Some((a as u32).checked_div(b as u32)?.into())
        }),
        ("REMUW not sign-extended", "remuw", |a, b| {
            Some((a as u32).checked_rem(b as u32)?.into())
        }),
    ]);
}

#[test]
fn counts() {
    each_is_found(&[
        ("CLZ of 0 giving 63", "clz", |a, _| (a == 0).then_some(63)),
        ("CTZ of 0 giving 63", "ctz", |a, _| (a == 0).then_some(63)),
        ("CTZ of 0 giving 0", "ctz", |a, _| (a == 0).then_some(0)),
        ("CPOP of 63 bits", "cpop", |a, _| {
            Some((a << 1).count_ones().into())
        }),
        ("CLZW counting 64 bits", "clzw", |a, _| {
            Some(a.leading_zeros().into())
        }),
        ("CTZW counting 64 bits", "ctzw", |a, _| {
            Some(a.trailing_zeros().into())
        }),
        ("CPOPW counting 64 bits", "cpopw", |a, _| {
            Some(a.count_ones().into())
        }),
        ("CTZW of 0 giving 31", "ctzw", |a, _| {
            (a as u32 == 0).then_some(31)
        }),
    ]);
}

#[test]
fn minimum_and_maximum() {
    each_is_found(&[
        ("MIN unsigned", "min", |a, b| Some(a.min(b))),
        ("MAX unsigned", "max", |a, b| Some(a.max(b))),
        ("MINU signed", "minu", |a, b| {
            Some((a as i64).min(b as i64) as u64)
        }),
        ("MAXU signed", "maxu", |a, b| {
            Some((a as i64).max(b as i64) as u64)
        }),
    ]);
}

/// Carries out one of the words beside M's and Zbb's, where it is handed in, as if it were a NOP.
struct Legal(&'static Encoding);

impl Simulator for Legal {
    fn call(&self, call: Call, hart: &mut Hart, mem: &mut [u8], map: &[u64]) -> Answer {
        let before = *hart;
        let answer = Second.call(call, hart, mem, map);
        match call {
            Call::StepWord(word) if self.0.is(word) && answer.cause == 2 => {
                *hart = before;
                hart.rest[PC] = before.rest[PC].wrapping_add(4);
                Answer {
                    trapped: false,
                    cause: 0,
                    ..answer
                }
            }
            _ => answer,
        }
    }
}

#[test]
fn each_neighbour_that_is_legal_is_found() {
    for encoding in &ABSENT {
        let failure = found(Legal(encoding), 0..STEPS, Soak::step)
            .unwrap_or_else(|| panic!("{} was not found to be legal", encoding.name));
        let Call::StepWord(word) = failure.case.call else {
            panic!("{}: no word was handed in", encoding.name);
        };
        assert_eq!(absent(word), Some(encoding));
    }
}

/// Without a slip the wrapper is `second`: what the tests above find is the slip and nothing else.
#[test]
fn no_slip_no_difference() {
    let nothing: Wrong = |_, _| None;
    assert!(found(Slip("mul", nothing), 0..STEPS, Soak::step).is_none());
    assert!(found(Slip("mul", nothing), 0..RUNS, Soak::run).is_none());
}
