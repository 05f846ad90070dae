//! Words as they are given: `desk disasm`, the text of words given as arguments or in a raw image, and the word of `desk run --word`.

use crate::failure::Failure;
use crate::image::image;
use crate::number::number;
use crate::run_options::some_text;
use clap::Args;
use sporhulma::BASE;
use std::io::Write;

/// The options of `desk disasm`.
#[derive(Args)]
#[rustfmt::skip]
pub struct DisasmOptions {
    #[arg(value_name = "WORD", hide = true, value_parser = some_text())]
    words: Vec<String>,
    #[arg(long, value_name = "FILE", value_parser = some_text(), help = "a raw image instead of words")]
    image: Option<String>,
    #[arg(long, value_name = "ADDRESS", value_parser = address, help = "the address of the first word, a multiple of 4 (default 0x80000000)")]
    at: Option<u64>,
    #[arg(long = "words", id = "most", value_name = "N", value_parser = number, help = "at most so many words of the image (default all)")]
    most: Option<u64>,
}

/// The address of an instruction.
pub fn address(text: &str) -> Result<u64, String> {
    match number(text)? {
        at if at % 4 != 0 => Err(format!(
            "{at:#x} is not a multiple of 4; try {:#x}",
            at - at % 4
        )),
        at => Ok(at),
    }
}

/// Prints a line a word: address, word, text.
pub fn run(options: &DisasmOptions, out: &mut dyn Write) -> Result<u8, Failure> {
    let bytes = bytes(options)?;
    let most = options.most.unwrap_or(u64::MAX).min(bytes.len() as u64) as usize;
    let mut pc = options.at.unwrap_or(BASE);
    for chunk in bytes.chunks(4).take(most) {
        match <[u8; 4]>::try_from(chunk) {
            Ok(bytes) => {
                let word = u32::from_le_bytes(bytes);
                writeln!(out, "{pc:#x}:  {word:08x}  {}", disasm::text(word, pc))?;
            }
            // An image's last bytes that are no whole word.
            Err(_) => {
                let bytes: Vec<String> = chunk.iter().map(|byte| format!("{byte:#04x}")).collect();
                writeln!(out, "{pc:#x}:  {:8}  .byte {}", "", bytes.join(", "))?;
            }
        }
        pc = pc.wrapping_add(4);
    }
    Ok(0)
}

/// The words as they lie in memory.
fn bytes(options: &DisasmOptions) -> Result<Vec<u8>, Failure> {
    match (&options.image, options.words.as_slice()) {
        (Some(path), []) => image(path),
        (Some(_), [word, ..]) => Err(Failure::at(
            "--image",
            format!("the word {word} is given too; give words or an image"),
        )),
        (None, []) => Err(Failure::at(
            "disasm",
            "nothing is given; write desk disasm 0x00a00513 or --image FILE",
        )),
        (None, _) if options.most.is_some() => {
            Err(Failure::at("--words", "it goes with --image; leave it out"))
        }
        (None, words) => {
            let words: Vec<u32> = words
                .iter()
                .map(|text| word(text))
                .collect::<Result<_, _>>()
                .map_err(|wrong| Failure::at("disasm", wrong))?;
            Ok(words.into_iter().flat_map(u32::to_le_bytes).collect())
        }
    }
}

/// A word as a number, or as eight hex digits as objdump prints it.
fn word(text: &str) -> Result<u32, String> {
    if is_hex(text) {
        return Ok(u32::from_str_radix(text, 16).unwrap_or_default());
    }
    let large = |_| format!("{text} has more than 32 bits; a word is at most 0xffffffff");
    u32::try_from(number(text)?).map_err(large)
}

fn is_hex(text: &str) -> bool {
    text.len() == 8 && text.chars().all(|digit| digit.is_ascii_hexdigit())
}

/// The word of `--word`: a word as above, or the text of an instruction at `pc`.
pub fn given(text: &str, pc: u64) -> Result<u32, String> {
    if is_hex(text) || text.starts_with(|first: char| first.is_ascii_digit()) {
        return word(text);
    }
    match asm::word(text, pc) {
        Ok(Some(word)) => Ok(word),
        Ok(None) => {
            Err("no instruction is given; write it as 'addi a0,a0,-1' or 0xfff50513".into())
        }
        Err(wrong) => Err(wrong.to_string()),
    }
}
