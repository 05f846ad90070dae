//! `desk asm`: the words of instructions given as arguments or in a text file.

use crate::failure::Failure;
use crate::image;
use crate::output;
use crate::run_options::some_text;
use crate::words::address;
use clap::Args;
use sporhulma::BASE;
use std::io::Write;

/// The options of `desk asm`.
#[derive(Args)]
#[rustfmt::skip]
pub struct AsmOptions {
    #[arg(value_name = "TEXT", hide = true, value_parser = some_text())]
    lines: Vec<String>,
    #[arg(long, value_name = "FILE", value_parser = some_text(), help = "a text file instead of arguments, a line an instruction; - for the standard input")]
    file: Option<String>,
    #[arg(long, value_name = "ADDRESS", value_parser = address, help = "the address of the first instruction, a multiple of 4 (default 0x80000000)")]
    at: Option<u64>,
    #[arg(short, value_name = "FILE", value_parser = some_text(), help = "write the words there as a raw image and not to the output")]
    output: Option<String>,
}

/// Prints a word a line, or writes them; nothing is written where something is wrong.
pub fn run(options: &AsmOptions, out: &mut dyn Write) -> Result<u8, Failure> {
    let words = words(options)?;
    let text = ("the text", options.file.as_deref());
    match output::asked("-o", options.output.as_deref(), &[text])? {
        Some(file) => {
            let bytes: Vec<u8> = words.into_iter().flat_map(u32::to_le_bytes).collect();
            file.replace(|file| Ok(file.write_all(&bytes)?))?;
        }
        None => {
            for word in words {
                writeln!(out, "{word:#010x}")?;
            }
        }
    }
    Ok(0)
}

/// The words of all lines. An argument is a line; a file's lines are told by its name.
fn words(options: &AsmOptions) -> Result<Vec<u32>, Failure> {
    let at = options.at.unwrap_or(BASE);
    let (place, text) = match (&options.file, options.lines.as_slice()) {
        (Some(_), [line, ..]) => {
            let wrong = format!("the text '{line}' is given too; give texts or a file");
            return Err(Failure::at("--file", wrong));
        }
        (Some(path), []) if path == "-" => ("the standard input", image::standard_input()?),
        (Some(path), []) => (path.as_str(), image::text(path)?),
        (None, lines) => ("asm", lines.join("\n")),
    };
    let words = asm::words(&text, at).map_err(|wrong| Failure::at(place, wrong.to_string()))?;
    match words.is_empty() {
        true => Err(Failure::at(
            place,
            "no instruction is given; write desk asm 'addi a0,a0,-1' or --file FILE",
        )),
        false => Ok(words),
    }
}
