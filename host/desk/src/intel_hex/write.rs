//! `desk hex`: writes a raw image as a text in Intel HEX.

use crate::failure::Failure;
use crate::image;
use crate::number::number;
use crate::output;
use crate::run_options::some_text;
use clap::Args;
use formats::hex::{text, MOST_DATA};
use sporhulma::BASE;
use std::io::Write;

/// The options of `desk hex`.
#[derive(Args)]
#[rustfmt::skip]
pub struct HexOptions {
    #[arg(value_name = "IMAGE", hide = true, value_parser = some_text())]
    image: String,
    #[arg(short, value_name = "FILE", value_parser = some_text(), help = "write the text there and not to the output")]
    output: Option<String>,
    #[arg(long, value_name = "ADDRESS", value_parser = address, help = "the address of the image's first byte, 32 bits (default 0x80000000, the start of memory)")]
    at: Option<u32>,
    #[arg(long, value_name = "N", value_parser = length, help = "data bytes a line, 1 to 255 (default 16)")]
    length: Option<usize>,
    #[arg(long, value_name = "ADDRESS", value_parser = address, help = "the start address that the text gives, 32 bits (default none)")]
    start: Option<u32>,
}

const LENGTH: usize = 16;

/// Prints or writes the text; nothing is written where something is wrong.
pub fn run(options: &HexOptions, out: &mut dyn Write) -> Result<u8, Failure> {
    let path = options.image.as_str();
    let bytes = image::image(path)?;
    let at = options.at.unwrap_or(BASE as u32);
    fits(at, bytes.len() as u64).map_err(|wrong| Failure::at("--at", wrong))?;
    let length = options.length.unwrap_or(LENGTH);
    let lines = text(&bytes, at, length, options.start);
    let image = ("the image", Some(path));
    match output::asked("-o", options.output.as_deref(), &[image])? {
        Some(file) => file.replace(|file| Ok(file.write_all(lines.as_bytes())?))?,
        None => out.write_all(lines.as_bytes())?,
    }
    Ok(0)
}

/// An address of Intel HEX has 32 bits.
fn address(value: &str) -> Result<u32, String> {
    let large = |_| format!("{value} has more than 32 bits, the most that Intel HEX can say");
    u32::try_from(number(value)?).map_err(large)
}

/// Whether so many bytes from an address on have addresses of 32 bits.
fn fits(address: u32, length: u64) -> Result<(), String> {
    let most = (1 << 32) - length;
    match u64::from(address) > most {
        true => Err(format!(
            "{length} bytes from {address:#x} on go past 0xffffffff, the last address of Intel HEX; try {most:#x} or less"
        )),
        false => Ok(()),
    }
}

fn length(value: &str) -> Result<usize, String> {
    let wrong = || {
        format!("{value} is not a length of a line's data; try 1 to {MOST_DATA}, for instance 32")
    };
    let length = usize::try_from(number(value)?).map_err(|_| wrong())?;
    (1..=MOST_DATA)
        .contains(&length)
        .then_some(length)
        .ok_or_else(wrong)
}
