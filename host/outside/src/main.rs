//! `tools/outside`: the hart, its disassembler and assembler, its loader of Intel HEX and the desk's
//! environment against what none of us wrote: QEMU, GNU binutils, srecord, and C programs by GCC and clang.
//!
//! This file reads the command line, runs the comparisons that were asked for and turns what they
//! found into an exit status.

mod asm_lines;
mod assembler;
mod c;
mod encode;
mod gnu;
mod hex;
mod image;
mod lockstep;
mod objdump;
mod options;
mod program;
mod qemu;
mod report;
mod side;
mod words;

use formats::random::Random;
use options::{Comparison, Options};
use std::process::ExitCode;
use terminal::say;

const HELP: &str = "\
tools/outside [COMPARISON] [OPTION ..]: the hart, its disassembler and assembler, its loader of Intel HEX and
the desk's environment against QEMU, GNU binutils and srecord

COMPARISON, all of them one after the other if none is given:
  objdump   the text of many words, beside GNU objdump's
  as        GNU as, reading that text, gives the word back
  asm       desk asm's library and GNU as give the same words for the same lines, and refuse the same
  qemu      random programs, step by step beside QEMU's riscv64 system emulator
  patches   programs that patch themselves, in the same way, and by a run to each of its steps
  image     examples/torque, assembled again, gives the committed images
  hex       Intel HEX of GNU objcopy and srec_cat is loaded byte for byte, and they read what desk hex writes
  c         examples/c, by GCC and clang: the desk and QEMU give the same text and exit value

OPTION:
  --seed S       where the random words, programs and images start from (default 1)
  --programs N   how many programs QEMU runs (default 40)
  --program N    only program number N of this seed

Exit status: 0 no difference, 1 a difference, 2 wrong usage or a tool that failed.";

fn main() -> ExitCode {
    let given: Vec<String> = std::env::args().skip(1).collect();
    let options = match options::read(&given) {
        Ok(Some(options)) => options,
        Ok(None) => {
            say!("{HELP}");
            return ExitCode::SUCCESS;
        }
        Err(wrong) => return failed(&wrong),
    };
    match compare(&options) {
        Ok(0) => {
            say!("outside: no difference");
            ExitCode::SUCCESS
        }
        Ok(differences) => {
            say!("outside: differences: {differences}");
            ExitCode::FAILURE
        }
        Err(wrong) => failed(&wrong),
    }
}

/// The stream number `number` of `seed`: streams of one seed have nothing in common.
fn stream(seed: u64, number: u64) -> Random {
    Random::new(Random::new(seed).word() ^ Random::new(number).word())
}

fn failed(wrong: &str) -> ExitCode {
    eprintln!("outside: {wrong}");
    ExitCode::from(2)
}

/// Runs the comparisons, each of which prints its own summary; gives the number of differences.
fn compare(options: &Options) -> Result<u64, String> {
    let mut differences = 0;
    for comparison in &options.comparisons {
        differences += match comparison {
            Comparison::Objdump => objdump::compare(options.seed)?,
            Comparison::As => assembler::compare(options.seed)?,
            Comparison::Asm => asm_lines::compare(options.seed)?,
            Comparison::Qemu => lockstep::compare(options.seed, options.programs.clone())?,
            Comparison::Patches => lockstep::compare_patched()?,
            Comparison::Image => image::compare()?,
            Comparison::Hex => hex::compare(options.seed)?,
            Comparison::C => c::compare()?,
        };
    }
    Ok(differences)
}
