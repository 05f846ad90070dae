//! The integer instructions' arithmetic, in 64 bits and in the 32 bits of the W forms. M's division and upper products
//! are in `multiply`.

use crate::multiply::*;

#[derive(Clone, Copy, PartialEq, Eq, Debug)]
pub enum Operation {
    Add,
    Sub,
    Sll,
    Slt,
    Sltu,
    Xor,
    Srl,
    Sra,
    Or,
    And,
    Mul,
    Mulh,
    Mulhsu,
    Mulhu,
    Div,
    Divu,
    Rem,
    Remu,
    Clz,
    Ctz,
    Cpop,
    Min,
    Minu,
    Max,
    Maxu,
}

/// The operations that have a W form.
#[derive(Clone, Copy, PartialEq, Eq, Debug)]
pub enum WordOperation {
    Add,
    Sub,
    Sll,
    Srl,
    Sra,
    Mul,
    Div,
    Divu,
    Rem,
    Remu,
    Clz,
    Ctz,
    Cpop,
}

#[derive(Clone, Copy, PartialEq, Eq, Debug)]
pub enum Comparison {
    Equal,
    NotEqual,
    Less,
    NotLess,
    LessUnsigned,
    NotLessUnsigned,
}

/// A shift looks at the low six bits of `b` only, and a count not at `b` at all.
///
/// Always inlined, as `decode` is: left to itself the compiler makes a call of so long a list.
#[inline(always)]
pub fn compute(operation: Operation, a: u64, b: u64) -> u64 {
    let distance = (b & 63) as u32;
    match operation {
        Operation::Add => a.wrapping_add(b),
        Operation::Sub => a.wrapping_sub(b),
        Operation::Sll => a << distance,
        Operation::Slt => u64::from((a as i64) < (b as i64)),
        Operation::Sltu => u64::from(a < b),
        Operation::Xor => a ^ b,
        Operation::Srl => a >> distance,
        Operation::Sra => (a as i64 >> distance) as u64,
        Operation::Or => a | b,
        Operation::And => a & b,
        Operation::Mul => a.wrapping_mul(b),
        Operation::Mulh => upper(a, b),
        Operation::Mulhsu => upper_mixed(a, b),
        Operation::Mulhu => upper_unsigned(a, b),
        Operation::Div => quotient(a, b),
        Operation::Divu => quotient_unsigned(a, b),
        Operation::Rem => remainder(a, b),
        Operation::Remu => remainder_unsigned(a, b),
        Operation::Clz => a.leading_zeros().into(),
        Operation::Ctz => a.trailing_zeros().into(),
        Operation::Cpop => a.count_ones().into(),
        Operation::Min => (a as i64).min(b as i64) as u64,
        Operation::Minu => a.min(b),
        Operation::Max => (a as i64).max(b as i64) as u64,
        Operation::Maxu => a.max(b),
    }
}

/// Works on the low 32 bits and sign-extends; a shift looks at the low five bits of `b` only. A division is the one of 64
/// bits on the extended halves: where 32 bits have a corner, the low half of what it gives is right too.
#[inline]
pub fn compute_word(operation: WordOperation, a: u64, b: u64) -> u64 {
    let (a, b) = (a as i32, b as i32);
    let distance = (b & 31) as u32;
    let unsigned = |half: i32| u64::from(half as u32);
    let result = match operation {
        WordOperation::Add => a.wrapping_add(b),
        WordOperation::Sub => a.wrapping_sub(b),
        WordOperation::Sll => a << distance,
        WordOperation::Srl => (a as u32 >> distance) as i32,
        WordOperation::Sra => a >> distance,
        WordOperation::Mul => a.wrapping_mul(b),
        WordOperation::Div => quotient(a as u64, b as u64) as i32,
        WordOperation::Divu => quotient_unsigned(unsigned(a), unsigned(b)) as i32,
        WordOperation::Rem => remainder(a as u64, b as u64) as i32,
        WordOperation::Remu => remainder_unsigned(unsigned(a), unsigned(b)) as i32,
        WordOperation::Clz => a.leading_zeros() as i32,
        WordOperation::Ctz => a.trailing_zeros() as i32,
        WordOperation::Cpop => a.count_ones() as i32,
    };
    result as u64
}

#[inline]
pub fn holds(comparison: Comparison, a: u64, b: u64) -> bool {
    match comparison {
        Comparison::Equal => a == b,
        Comparison::NotEqual => a != b,
        Comparison::Less => (a as i64) < (b as i64),
        Comparison::NotLess => (a as i64) >= (b as i64),
        Comparison::LessUnsigned => a < b,
        Comparison::NotLessUnsigned => a >= b,
    }
}
