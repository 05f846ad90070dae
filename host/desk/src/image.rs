//! Files that are read: images and texts.

use crate::elf;
use crate::failure::Failure;
use crate::intel_hex::{self, MOST};
use crate::refusal::MEMORY;
use std::fs::File;
use std::io::Read;

/// A raw image, at most as large as the largest memory, and not a file of another kind.
pub fn image(path: &str) -> Result<Vec<u8>, Failure> {
    let bytes = bytes(path)?;
    if elf::told(&bytes) {
        let wrong = "it is an ELF file; give a raw image (objcopy -O binary makes one)";
        return Err(Failure::at(path, wrong));
    }
    if intel_hex::told(&bytes) {
        let wrong = "it is Intel HEX; give a raw image";
        return Err(Failure::at(path, wrong));
    }
    raw(path, bytes)
}

/// What a file holds, if it can be a raw image.
pub fn raw(path: &str, bytes: Vec<u8>) -> Result<Vec<u8>, Failure> {
    match bytes.len() {
        0 => Err(Failure::at(
            path,
            "the image is empty; give a file with at least one instruction",
        )),
        length if length as u64 > MEMORY => Err(Failure::at(
            path,
            format!("the image has more than {MEMORY} bytes (1M), the largest memory"),
        )),
        _ => Ok(bytes),
    }
}

/// A text, for instance a page map.
pub fn text(path: &str) -> Result<String, Failure> {
    text_of(path, bytes(path)?)
}

/// The text that is handed in, for instance through a pipe.
pub fn standard_input() -> Result<String, Failure> {
    let place = "the standard input";
    let wrong = |error| Failure::at(place, format!("it cannot be read: {error}"));
    let mut bytes = Vec::new();
    let mut input = std::io::stdin().take(MOST + 1);
    input.read_to_end(&mut bytes).map_err(wrong)?;
    text_of(place, bytes)
}

fn text_of(place: &str, bytes: Vec<u8>) -> Result<String, Failure> {
    if bytes.len() as u64 > MOST {
        let wrong = format!("it has more than {MOST} bytes (64M); give a shorter text");
        return Err(Failure::at(place, wrong));
    }
    let wrong = |_| Failure::at(place, "it is no text (not UTF-8); give a text file");
    String::from_utf8(bytes).map_err(wrong)
}

/// What a file holds, if that is all of it.
pub fn whole<'a>(path: &str, bytes: &'a [u8]) -> Result<&'a [u8], Failure> {
    match bytes.len() as u64 {
        0..=MOST => Ok(bytes),
        _ => {
            let wrong = format!("the file has more than {MOST} bytes (64M); take out debug information with objcopy --strip-debug");
            Err(Failure::at(path, wrong))
        }
    }
}

/// What a file holds, but no more than shows that it is too large for all that the desk reads.
pub fn bytes(path: &str) -> Result<Vec<u8>, Failure> {
    let wrong = |error: std::io::Error| {
        let why = match error.kind() {
            std::io::ErrorKind::NotFound => "there is no such file; check the path".to_string(),
            std::io::ErrorKind::IsADirectory => "it is a folder; give a file".to_string(),
            std::io::ErrorKind::PermissionDenied => {
                "it may not be read; check its rights".to_string()
            }
            _ => format!("it cannot be read: {error}"),
        };
        Failure::at(path, why)
    };
    let mut bytes = Vec::new();
    let file = File::open(path).map_err(wrong)?;
    file.take(MOST + 1).read_to_end(&mut bytes).map_err(wrong)?;
    Ok(bytes)
}
