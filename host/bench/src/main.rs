//! `tools/bench`: millions of instructions a second of `sporhulma_run` and of the second simulator, on the same programs in the same
//! run, and below them megabytes of Intel HEX a second. Each figure is the best of several turns, which the two take one after the other,
//! so that a busy machine harms both alike.

mod controller;
mod count;
mod encode;
mod filter;
mod hex;
mod programs;
mod straight;

use formats::number::unsigned;
use programs::Program;
use std::process::ExitCode;
use std::time::Instant;

const USAGE: &str = "usage: tools/bench [MILLIONS] [TURNS]: instructions, or bytes of text, a turn in millions (1 to 1000, default 20), turns (1 to 100, default 5); or tools/bench count";

/// Calls `run` until it has taken `steps` instructions in all, at most so many a call, and gives millions a second.
fn speed(steps: u64, most: u64, mut run: impl FnMut(u64) -> u64) -> f64 {
    let start = Instant::now();
    let mut taken = 0;
    while taken < steps {
        taken += run(most.min(steps - taken));
    }
    taken as f64 / start.elapsed().as_secs_f64() / 1e6
}

fn proved(p: &Program, steps: u64) -> f64 {
    let (mut hart, mut memory) = (p.hart, p.memory.clone());
    speed(steps, p.most, |budget| {
        let a = sporhulma::run(&mut hart, &mut memory, &p.map, budget);
        assert_eq!(a.refusal, 0, "{}: refused", p.name);
        a.count
    })
}

fn second(p: &Program, steps: u64) -> f64 {
    let mut hart = second::Hart::from_words(&p.hart.x, &p.hart.rest);
    let mut memory = p.memory.clone();
    speed(steps, p.most, |budget| {
        let a = second::run(&mut hart, &mut memory, &p.map, budget);
        assert_eq!(a.refusal, 0, "{}: refused", p.name);
        a.count
    })
}

fn number(text: Option<&String>, most: u64, default: u64) -> Option<u64> {
    match text {
        None => Some(default),
        Some(text) => unsigned(text).ok().filter(|n| (1..=most).contains(n)),
    }
}

fn main() -> ExitCode {
    let words: Vec<String> = std::env::args().skip(1).collect();
    if words.first().is_some_and(|word| word == "count") {
        return count::count(&words[1..]);
    }
    table(&words)
}

fn table(words: &[String]) -> ExitCode {
    let given = (
        number(words.first(), 1000, 20),
        number(words.get(1), 100, 5),
    );
    let ((Some(millions), Some(turns)), true) = (given, words.len() <= 2) else {
        eprintln!("bench: {:?} is not what it takes; {USAGE}", words.join(" "));
        return ExitCode::from(2);
    };
    if count::emulated().is_some() {
        eprintln!("bench: programs run under an emulator here (tools/host), so a time would be the emulator's: counted instructions instead, as tools/bench count");
        return count::count(&[]);
    }
    println!("Millions of instructions a second, best of {turns} turns of {millions} million");
    println!(
        "{:<40} {:>9} {:>9} {:>7}",
        "program", "sporhulma", "second", "ratio"
    );
    let amount = millions * 1_000_000;
    for p in programs::all() {
        row(p.name, turns, || (proved(&p, amount), second(&p, amount)));
    }
    println!("Megabytes of text a second, best of {turns} turns of {millions}");
    for text in hex::all() {
        let turn = || (hex::proved(&text, amount), hex::second(&text, amount));
        row(text.name, turns, turn);
    }
    ExitCode::SUCCESS
}

/// A line of the table: of each side the best of so many turns.
fn row(name: &str, turns: u64, turn: impl Fn() -> (f64, f64)) {
    let (mut ours, mut theirs) = (0.0f64, 0.0f64);
    for _ in 0..turns {
        let (one, other) = turn();
        (ours, theirs) = (ours.max(one), theirs.max(other));
    }
    let ratio = ours / theirs;
    println!("{name:<40} {ours:>9.1} {theirs:>9.1} {ratio:>7.2}");
}

#[cfg(test)]
mod tests {
    use super::*;

    /// A turn compares what was loaded with the image.
    #[test]
    fn the_texts_are_loaded_by_both() {
        for text in hex::all() {
            assert!(hex::proved(&text, 1) > 0.0 && hex::second(&text, 1) > 0.0);
        }
    }

    /// Both simulators do the same with each program, and only one of them traps: else the table would time something else.
    #[test]
    fn the_programs_do_what_they_are_for() {
        // More than the longest of them takes to come round once.
        const STEPS: u64 = 20_000;
        for p in programs::all() {
            let (mut ours, mut memory) = (p.hart, p.memory.clone());
            let mut theirs = second::Hart::from_words(&p.hart.x, &p.hart.rest);
            let mut other = p.memory.clone();
            let (mut taken, budget) = (0, p.most.min(STEPS));
            while taken < STEPS {
                let answer = sporhulma::run(&mut ours, &mut memory, &p.map, budget);
                let told = second::run(&mut theirs, &mut other, &p.map, budget);
                assert_eq!(
                    (answer.refusal, answer.trapped),
                    (0, p.name == "CSR and trap loop"),
                    "{}",
                    p.name
                );
                assert_eq!((answer.count, answer.trapped), (told.count, told.trapped));
                taken += answer.count;
            }
            assert_eq!((ours.x, ours.rest), theirs.to_words());
            assert_eq!(memory, other);
        }
    }
}
