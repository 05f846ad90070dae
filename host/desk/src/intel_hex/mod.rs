//! Intel HEX at the desk (chapter 11): telling a text from a raw image, loading it by the proved call, and saying in words why
//! one is refused. `desk hex` writes such a text.

mod line;
pub mod write;
mod wrong;

use crate::failure::Failure;
use crate::refusal;

/// Most bytes of a text that the desk reads: the largest memory, written a byte a line, has a quarter of them.
pub const MOST: u64 = 1 << 26;

/// Whether bytes begin as a text in Intel HEX does, with a colon and a hex pair. White space and a byte order mark before them
/// count as the text's own, so that they are refused as such and not run as a raw image.
pub fn told(bytes: &[u8]) -> bool {
    let bytes = bytes.strip_prefix(b"\xEF\xBB\xBF").unwrap_or(bytes);
    match bytes.trim_ascii_start() {
        [b':', one, other, ..] => one.is_ascii_hexdigit() && other.is_ascii_hexdigit(),
        _ => false,
    }
}

/// Loads a text into memory by the proved call; gives its start address, if it has one. `guessed`: that it is Intel HEX was
/// told from its content.
pub fn load(
    path: &str,
    text: &[u8],
    mem: &mut [u8],
    guessed: bool,
) -> Result<Option<u64>, Failure> {
    let length = mem.len() as u64;
    if text.len() as u64 > MOST {
        let wrong =
            format!("the text has more than {MOST} bytes (64M); leave out what is stored twice");
        return Err(Failure::at(path, wrong));
    }
    let loaded = sporhulma::load_hex(mem, text);
    match loaded.refusal {
        0 => Ok(loaded.start),
        2 => {
            let wrong =
                refusal::memory(length).unwrap_or_else(|| format!("{length} bytes are refused"));
            Err(Failure::at(
                "--memory",
                format!("{wrong} (the loader's refusal 2)"),
            ))
        }
        number => {
            let place = format!("{path}:{}", loaded.line);
            let mut what = wrong::named(text, length, loaded.line);
            if guessed && !wrong::begins_well(text) {
                what += "; a raw image needs --format raw";
            }
            let line = format!("{what} (the loader's refusal {number})");
            Err(Failure::at(&place, line))
        }
    }
}

#[cfg(test)]
mod tests {
    use super::*;

    #[test]
    fn a_text_is_told_from_a_raw_image() {
        for text in [
            &b":00000001FF"[..],
            b":0a",
            b"\n:020000",
            b"\r\n\t :020000",
            b"\xEF\xBB\xBF:10",
        ] {
            assert!(told(text), "{text:?}");
        }
        // Words of code, and what only looks a little like a text.
        for raw in [
            &b"\x13\x05\xa0\x00"[..],
            b"",
            b":",
            b":0",
            b":0g",
            b"::00",
            b"0:00",
            b"x\n:00000001FF",
        ] {
            assert!(!told(raw), "{raw:?}");
        }
    }
}
