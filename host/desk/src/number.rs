//! Numbers as an engineer writes them: 4096, 0x1000, 0b1000, 1_000_000, 64K, and -1 for a register.

use formats::number::{negative, unsigned, Wrong};

/// A number of at most 64 bits.
pub fn number(text: &str) -> Result<u64, String> {
    let told = |wrong: Wrong| wrong.told(text, "4096, 0x1000 or 0b1000");
    unsigned(&text.replace('_', "")).map_err(told)
}

/// A number of bytes: a number, or one with K (1024) or M (1048576) behind it.
pub fn size(text: &str) -> Result<u64, String> {
    let (digits, unit) = match text.as_bytes().last() {
        Some(b'K' | b'k') => (&text[..text.len() - 1], 1 << 10),
        Some(b'M' | b'm') => (&text[..text.len() - 1], 1 << 20),
        _ => (text, 1),
    };
    let count = number(digits)
        .map_err(|_| format!("'{text}' is not a size; write it as 65536, 0x10000, 64K or 1M"))?;
    count
        .checked_mul(unit)
        .ok_or_else(|| format!("{text} has more than 64 bits; the largest memory is 1M"))
}

/// What a register can hold: a number, or a negative one down to -2^63 in two's complement.
pub fn register_value(text: &str) -> Result<u64, String> {
    let Some(positive) = text.strip_prefix('-') else {
        return number(text);
    };
    negative(number(positive)?).map_err(|wrong| wrong.told(text, ""))
}

#[cfg(test)]
mod tests {
    use super::*;

    #[test]
    fn every_spelling_is_read() {
        assert_eq!(number("1_000"), Ok(1000));
        assert_eq!(number("0xFFFF_FFFF_FFFF_FFFF"), Ok(u64::MAX));
        assert_eq!(number("0b101"), Ok(5));
        assert_eq!(size("64K"), Ok(65536));
        assert_eq!(size("0x10M"), Ok(16 << 20));
        assert_eq!(register_value("-1"), Ok(u64::MAX));
        assert_eq!(register_value("-0x8000000000000000"), Ok(1 << 63));
    }

    #[test]
    fn what_is_no_number_is_refused() {
        for text in ["", "0x", "12z", "-", "+5", "--1", "0b2", "1.5", "_"] {
            assert!(number(text).is_err(), "{text}");
        }
        assert!(number("0x10000000000000000").is_err());
        assert!(register_value("-9223372036854775809").is_err());
        assert!(size("K").is_err());
        assert!(size("99999999999999999999M").is_err());
    }
}
