//! The desk: the program an engineer uses. `desk help` and docs/DESK.md say what it does.

mod assemble;
mod commands;
mod demonstrate;
mod drive;
mod dump;
mod elf;
mod ends;
mod environment;
mod explain;
mod facts;
mod failure;
mod frames;
mod help;
mod hints;
mod image;
mod intel_hex;
mod interrupt;
mod layout;
mod load;
mod map;
mod names;
mod notes;
mod number;
mod output;
mod past;
mod place;
mod profile;
mod progress;
mod refusal;
mod registers;
mod report;
mod run;
mod run_options;
mod setup;
mod start;
mod state;
mod steps;
mod symbols;
mod text;
mod trace;
mod usage;
mod window;
mod words;

use clap::error::ErrorKind;
use clap::Parser;
use commands::{Command, Desk};
use failure::Failure;
use intel_hex::write;
use std::ffi::OsString;
use std::io::{stderr, stdout, BufWriter, Write};
use std::process::ExitCode;

fn main() -> ExitCode {
    let mut out = BufWriter::new(stdout().lock());
    let ended = arguments().and_then(|arguments| command(&arguments, &mut out));
    // What was said before a failure belongs to the output too.
    let ended = match (ended, out.flush()) {
        (Ok(_), Err(error)) => Err(Failure::from(error)),
        (ended, _) => ended,
    };
    match ended {
        Ok(status) => ExitCode::from(status),
        Err(failure) => {
            if let Some(line) = failure.line() {
                // Where stderr is closed there is nobody to tell; the status says it.
                let _ = writeln!(stderr(), "desk: {line}");
            }
            ExitCode::from(failure.status())
        }
    }
}

fn arguments() -> Result<Vec<String>, Failure> {
    let wrong = |argument: OsString| {
        Failure::at(
            &argument.to_string_lossy(),
            "this argument is no text (not UTF-8); rename the file",
        )
    };
    std::env::args_os()
        .skip(1)
        .map(|argument| argument.into_string().map_err(wrong))
        .collect()
}

/// Does what the arguments ask for; the answer is the exit status.
fn command(arguments: &[String], out: &mut dyn Write) -> Result<u8, Failure> {
    let desk = std::iter::once("desk").chain(arguments.iter().map(String::as_str));
    match Desk::try_parse_from(desk).map(|desk| desk.command) {
        Ok(Command::Run(options)) => run::run(&options, out),
        Ok(Command::Frames(options)) => frames::run(&options, out),
        Ok(Command::Demo(options)) => demonstrate::run(&options, out),
        Ok(Command::Disasm(options)) => words::run(&options, out),
        Ok(Command::Asm(options)) => assemble::run(&options, out),
        Ok(Command::Hex(options)) => write::run(&options, out),
        Err(error) if error.kind() == ErrorKind::DisplayHelp => {
            write!(out, "{error}")?;
            Ok(0)
        }
        Err(error) => {
            let command = arguments.first().map_or("", String::as_str);
            Err(usage::failure(&error, command))
        }
    }
}
