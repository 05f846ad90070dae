//! Numbers as GNU as reads them: 10, -1, 0x1f, 0b101.

use crate::text::Piece;
use crate::wrong::Wrong;
use formats::number::{negative, unsigned, Wrong as NoNumber};

/// The bits of a number from -2^63 to 2^64 - 1.
pub fn number(piece: Piece) -> Result<u64, Wrong> {
    let wrong = |what: String| Wrong::at(piece.column, what);
    let told = |no: NoNumber| wrong(no.told(piece.text, "10, -1, 0x1f or 0b101"));
    let (is_negative, digits) = match piece.text.strip_prefix('-') {
        Some(digits) => (true, digits),
        None => (false, piece.text),
    };
    // To GNU as it would be octal.
    let octal =
        digits.len() > 1 && digits.starts_with('0') && digits.chars().all(|c| c.is_ascii_digit());
    if octal {
        return Err(wrong(format!(
            "'{}' begins with 0, which is octal to some and not to others; write it as 10 or 0x1f",
            piece.text
        )));
    }
    let magnitude = unsigned(digits).map_err(told)?;
    match is_negative {
        false => Ok(magnitude),
        true => negative(magnitude).map_err(told),
    }
}
