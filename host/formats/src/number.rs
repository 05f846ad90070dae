//! Numbers as an engineer writes them: 4096, 0x1000, 0b1000.

/// Why a text is no number of 64 bits.
#[derive(Clone, Copy, PartialEq, Eq, Debug)]
pub enum Wrong {
    NoNumber,
    TooLarge,
    /// Below -2^63.
    TooLow,
}

impl Wrong {
    /// In words; `right` are spellings of which the reader takes each.
    pub fn told(self, text: &str, right: &str) -> String {
        match self {
            Wrong::NoNumber => format!("'{text}' is not a number; write it as {right}"),
            Wrong::TooLarge => {
                format!("{text} has more than 64 bits; the largest is 0xffffffffffffffff")
            }
            Wrong::TooLow => format!("{text} is below -2^63, the least that 64 bits hold"),
        }
    }
}

/// A number without a sign.
pub fn unsigned(text: &str) -> Result<u64, Wrong> {
    let lower = text.to_ascii_lowercase();
    let (digits, radix) = match (lower.strip_prefix("0x"), lower.strip_prefix("0b")) {
        (Some(digits), _) => (digits, 16),
        (_, Some(digits)) => (digits, 2),
        _ => (lower.as_str(), 10),
    };
    if digits.is_empty() || !digits.chars().all(|digit| digit.is_digit(radix)) {
        return Err(Wrong::NoNumber);
    }
    u64::from_str_radix(digits, radix).map_err(|_| Wrong::TooLarge)
}

/// The two's complement of a number behind a minus.
pub fn negative(magnitude: u64) -> Result<u64, Wrong> {
    match magnitude {
        0..=0x8000_0000_0000_0000 => Ok(magnitude.wrapping_neg()),
        _ => Err(Wrong::TooLow),
    }
}

#[cfg(test)]
mod tests {
    use super::*;

    #[test]
    fn every_spelling_is_read() {
        assert_eq!(unsigned("4096"), Ok(4096));
        assert_eq!(unsigned("0XffFF"), Ok(0xFFFF));
        assert_eq!(unsigned("0b101"), Ok(5));
        assert_eq!(unsigned("18446744073709551615"), Ok(u64::MAX));
        assert_eq!(negative(1), Ok(u64::MAX));
        assert_eq!(negative(1 << 63), Ok(1 << 63));
    }

    #[test]
    fn what_is_no_number_is_refused() {
        for text in ["", "0x", "12z", "-", "+5", "-1", "0b2", "1.5", "1_0"] {
            assert_eq!(unsigned(text), Err(Wrong::NoNumber), "{text}");
        }
        assert_eq!(unsigned("18446744073709551616"), Err(Wrong::TooLarge));
        assert_eq!(negative(1 << 63 | 1), Err(Wrong::TooLow));
    }
}
