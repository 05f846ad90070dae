//! M's division and upper products. None of them traps: division by zero and its overflow have results.

/// MULH: the upper half of the product of two signed numbers.
#[inline]
pub fn upper(a: u64, b: u64) -> u64 {
    ((i128::from(a as i64) * i128::from(b as i64)) >> 64) as u64
}

/// MULHSU: of a signed number, `a`, and an unsigned one.
#[inline]
pub fn upper_mixed(a: u64, b: u64) -> u64 {
    ((i128::from(a as i64) * i128::from(b)) >> 64) as u64
}

/// MULHU: of two unsigned numbers.
#[inline]
pub fn upper_unsigned(a: u64, b: u64) -> u64 {
    ((u128::from(a) * u128::from(b)) >> 64) as u64
}

/// DIV, rounded towards zero. By zero it is -1; the least number by -1 overflows and is itself.
#[inline]
pub fn quotient(a: u64, b: u64) -> u64 {
    match b {
        0 => u64::MAX,
        _ => (a as i64).wrapping_div(b as i64) as u64,
    }
}

/// DIVU. By zero it is the greatest number.
#[inline]
pub fn quotient_unsigned(a: u64, b: u64) -> u64 {
    a.checked_div(b).unwrap_or(u64::MAX)
}

/// REM, with the sign of the dividend. By zero it is the dividend; of the least number by -1 it is 0.
#[inline]
pub fn remainder(a: u64, b: u64) -> u64 {
    match b {
        0 => a,
        _ => (a as i64).wrapping_rem(b as i64) as u64,
    }
}

/// REMU. By zero it is the dividend.
#[inline]
pub fn remainder_unsigned(a: u64, b: u64) -> u64 {
    a.checked_rem(b).unwrap_or(a)
}
