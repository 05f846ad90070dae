//! `tools/bench count`: machine instructions for one simulated instruction and for a byte of Intel HEX, as valgrind counts them, or the
//! emulator where programs run under one. Times on a shared machine move by a factor of two; this does not move at all.

use crate::{hex, programs, proved, second};
use std::env;
use std::ffi::OsString;
use std::process::{Command, ExitCode};

const SIDES: [&str; 2] = ["sporhulma", "second"];
const MILLION: u64 = 1_000_000;

/// Without words: the table. With a side, a row and a number: that many millions of simulated instructions, to be counted; or that many
/// loads of a text, whose rows follow those of the programs.
pub fn count(words: &[String]) -> ExitCode {
    match words {
        [] => table(),
        [side, row, times] => one(side, row, times),
        _ => wrong("it takes no words"),
    }
}

fn wrong(what: &str) -> ExitCode {
    eprintln!("bench: count: {what}; usage: tools/bench count");
    ExitCode::from(2)
}

fn one(side: &str, row: &str, times: &str) -> ExitCode {
    let (programs, texts) = (programs::all(), hex::all());
    let (Ok(row), Ok(times)) = (row.parse::<usize>(), times.parse::<u64>()) else {
        return wrong("a row and how many times are numbers");
    };
    let ours = side == SIDES[0];
    if row >= programs.len() + texts.len() || !SIDES.contains(&side) {
        return wrong("no such row or simulator");
    }
    match programs.get(row) {
        Some(p) => (if ours { proved } else { second })(p, times * MILLION),
        None => {
            let text = &texts[row - programs.len()];
            (if ours { hex::proved } else { hex::second })(text, times * text.bytes())
        }
    };
    ExitCode::SUCCESS
}

/// Where programs run under an emulator: which one (tools/host says so), and its plugin that counts (tools/bench).
pub fn emulated() -> Option<(OsString, OsString)> {
    Some((
        env::var_os("SPORHULMA_RUNNER")?,
        env::var_os("SPORHULMA_COUNTER")?,
    ))
}

/// What counts a program's instructions, and says "Collected : N" of them.
fn counter() -> Command {
    if let Some((emulator, plugin)) = emulated() {
        let mut command = Command::new(emulator);
        command.arg("-plugin").arg(plugin).args(["-d", "plugin"]);
        return command;
    }
    let mut command = Command::new("valgrind");
    command.args(["--tool=callgrind", "--callgrind-out-file=/dev/null"]);
    command
}

/// What was collected while this program did a row so many times.
fn collected(side: &str, row: usize, times: u64) -> Option<f64> {
    let ran = counter()
        .arg(env::current_exe().ok()?)
        .args(["count", side, &row.to_string(), &times.to_string()])
        .output()
        .ok()?;
    let said = String::from_utf8_lossy(&ran.stderr).into_owned();
    let number = said.split("Collected : ").nth(1)?;
    number.split_whitespace().next()?.parse().ok()
}

/// A line of the table; `each` is how many instructions or bytes one time has.
fn line(name: &str, row: usize, each: u64) -> Option<String> {
    let mut line = format!("{name:<40}");
    for side in SIDES {
        // The second time alone: what starting costs is in the first.
        let (first, both) = (collected(side, row, 1)?, collected(side, row, 2)?);
        line += &format!(" {:>9.1}", (both - first) / each as f64);
    }
    Some(line)
}

fn table() -> ExitCode {
    println!("Machine instructions for one simulated instruction, and for a byte of text");
    println!("{:<40} {:>9} {:>9}", "program", SIDES[0], SIDES[1]);
    let programs = programs::all().into_iter().map(|p| (p.name, MILLION));
    let texts = hex::all().map(|text| (text.name, text.bytes()));
    for (row, (name, each)) in programs.chain(texts).enumerate() {
        let Some(line) = line(name, row, each) else {
            eprintln!("bench: count: no number of instructions came from valgrind, or from the emulator where tools/bench uses it");
            return ExitCode::FAILURE;
        };
        println!("{line}");
    }
    ExitCode::SUCCESS
}
