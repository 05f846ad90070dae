//! The command line of `differ`.

use crate::soak::Name;
use crate::text::no_number;
use terminal::options::{items, Item};

pub const HELP: &str = "\
differ: the proved simulator (left) against the second, independent one (right)

  differ test                 1,000,000 steps, 20,000 runs, 100,000 pairs, 4,000 patches, 100,000 texts and 2,000,000
                              eights of a fixed seed; this is what ./test runs
  differ soak [--steps N] [--runs N] [--pairs N] [--patches N] [--seed S]
                              any number (default 10,000,000, 200,000, 1,000,000 and 40,000, seed 1);
                              0 means until stopped, and then no summary is printed
  differ pairs [--count N] [--seed S]
                              pairs alone (default 100,000, seed 1)
  differ patches [--count N] [--seed S]
                              programs that patch themselves alone (default 40,000, seed 1)
  differ hex [--count N] [--seed S]
                              texts in Intel HEX (default 1,000,000, seed 1; 0 means until stopped)
  differ hex FILE [--memory BYTES]
                              the text in a file, with so many bytes of memory (default 1,048,576)
  differ eights [--count N] [--seed S]
                              instructions as eight numbers (default 10,000,000, seed 1; 0 means until stopped)
  differ again FILE           one case from the file that a failure wrote
  differ again --seed S --case N
                              step N of a seed; --run N, --pair N, --patch N or --text N in place of --case N: run,
                              pair, patch or text N of a seed
  differ decoder              the decoder's verdict on all 2^32 words, and each through a read and a write, on all cores
  differ --help               this text

A pair (request A13) is a user's hart and map with two memories that differ in every byte of each frame that no valid
entry with U names: on each simulator the calls must answer alike with both, up to and including the first trap, and
leave the named frames alike and the other ones as they were. Beside that the two simulators must agree on each memory.

A patch is a program that stores over its own code, by stores, pushes and swaps, and runs what it stored; it is for a run
that remembers what it has decoded, after its first 1,024 steps: half of the programs patch themselves behind these. A run of
it and the same run in two parts must end alike, on both simulators.

A text (request A7) is good, damaged in one of the ways that the request names, or changed at random; the two readers must
answer alike and leave the same bytes, and those for which a good or damaged text was made.

An eight (request A1) is an instruction as include/sporhulma.h lays it out, half of them changed in one place: written and read
it must give the same numbers, exactly where the header's table has them, and else refusal 5 with the word as it was.

A difference is printed with the words and bytes that differ and the command that runs its case again; its case or text is
written to target/differ/ (an eight's numbers stand in its line). After 5 differences the command ends.
Exit status: 0 no difference, 1 a difference (for test also: a kind of case or text that was not seen, under 60 % of the
pairs of three completed steps and more with a load and a store that reached memory, under 85 % of the patches with a
patched word that was run, under 35 % with one that was so on the fast path, under 40 % of the texts loaded, or under 35 % of the eights written or refused),
2 wrong usage.
";

#[derive(Debug, PartialEq, Eq)]
pub enum Command {
    Help,
    Test,
    Soak { amounts: Amounts, seed: u64 },
    AgainFile(String),
    Again { seed: u64, name: Name },
    AgainText { seed: u64, number: u64 },
    Texts { count: Option<u64>, seed: u64 },
    TextFile { file: String, memory: usize },
    Eights { count: Option<u64>, seed: u64 },
    Decoder,
}

/// How many of each kind of case; None means until stopped.
#[derive(Clone, Copy, Debug, PartialEq, Eq)]
pub struct Amounts {
    pub steps: Option<u64>,
    pub runs: Option<u64>,
    pub pairs: Option<u64>,
    pub patches: Option<u64>,
}

impl Amounts {
    /// No case of any kind.
    pub const NONE: Amounts = Amounts {
        steps: Some(0),
        runs: Some(0),
        pairs: Some(0),
        patches: Some(0),
    };
}

const COMMANDS: &str = "right is test, soak, pairs, patches, hex, eights, again, decoder or --help";

/// A text may ask for no more memory than a little over the most that is accepted.
const MOST_MEMORY: u64 = 0x20_0000;

/// Reads the arguments; an error is one line that says what would be right.
pub fn parse(args: &[String]) -> Result<Command, String> {
    let args: Vec<&str> = args.iter().map(String::as_str).collect();
    match args[..] {
        ["--help" | "-h" | "help"] => Ok(Command::Help),
        ["test"] => Ok(Command::Test),
        ["decoder"] => Ok(Command::Decoder),
        ["soak", ref options @ ..] => soak(options),
        ["pairs", ref options @ ..] => pairs(options),
        ["patches", ref options @ ..] => patches(options),
        ["hex", file, ref options @ ..] if !file.starts_with('-') => text_file(file, options),
        ["hex", ref options @ ..] => texts(options),
        ["eights", ref options @ ..] => eights(options),
        ["again", file] if !file.starts_with('-') => Ok(Command::AgainFile(file.to_string())),
        ["again", ref options @ ..] => again(options),
        [] => Err(format!("no command: {COMMANDS}")),
        [command @ ("test" | "decoder"), extra, ..] => Err(format!(
            "'{command}' takes no argument, and '{extra}' is one"
        )),
        [command, ..] => Err(format!("'{command}' is no command: {COMMANDS}")),
    }
}

/// The values of `names`, each given at most once; None where it is not given.
fn values<const N: usize>(options: &[&str], names: [&str; N]) -> Result<[Option<u64>; N], String> {
    let mut values = [None; N];
    for item in items(options, &names) {
        match item {
            Item::Word(word) => {
                let names = names.join(", ");
                return Err(format!("'{word}' is no option here: right is {names}"));
            }
            Item::Alone(name) => return Err(format!("{name} needs a number after it")),
            Item::NoNumber(name, text) => return Err(format!("{name}: {}", no_number(text))),
            Item::Number(at, _) if values[at].is_some() => {
                return Err(format!("{} is given twice", names[at]))
            }
            Item::Number(at, number) => values[at] = Some(number),
        }
    }
    Ok(values)
}

/// An amount as it is given: 0 means until stopped.
fn amount(given: Option<u64>, otherwise: u64) -> Option<u64> {
    Some(given.unwrap_or(otherwise)).filter(|amount| *amount != 0)
}

fn soak(options: &[&str]) -> Result<Command, String> {
    let names = ["--steps", "--runs", "--pairs", "--patches", "--seed"];
    let [steps, runs, pairs, patches, seed] = values(options, names)?;
    Ok(Command::Soak {
        amounts: Amounts {
            steps: amount(steps, 10_000_000),
            runs: amount(runs, 200_000),
            pairs: amount(pairs, 1_000_000),
            patches: amount(patches, 40_000),
        },
        seed: seed.unwrap_or(1),
    })
}

fn pairs(options: &[&str]) -> Result<Command, String> {
    let [count, seed] = values(options, ["--count", "--seed"])?;
    Ok(Command::Soak {
        amounts: Amounts {
            pairs: amount(count, 100_000),
            ..Amounts::NONE
        },
        seed: seed.unwrap_or(1),
    })
}

fn patches(options: &[&str]) -> Result<Command, String> {
    let [count, seed] = values(options, ["--count", "--seed"])?;
    Ok(Command::Soak {
        amounts: Amounts {
            patches: amount(count, 40_000),
            ..Amounts::NONE
        },
        seed: seed.unwrap_or(1),
    })
}

fn texts(options: &[&str]) -> Result<Command, String> {
    let [count, seed] = values(options, ["--count", "--seed"])?;
    Ok(Command::Texts {
        count: amount(count, 1_000_000),
        seed: seed.unwrap_or(1),
    })
}

fn eights(options: &[&str]) -> Result<Command, String> {
    let [count, seed] = values(options, ["--count", "--seed"])?;
    Ok(Command::Eights {
        count: amount(count, 10_000_000),
        seed: seed.unwrap_or(1),
    })
}

fn text_file(file: &str, options: &[&str]) -> Result<Command, String> {
    let [memory] = values(options, ["--memory"])?;
    match memory.unwrap_or(0x10_0000) {
        memory if memory > MOST_MEMORY => Err(format!(
            "--memory: {memory} bytes are not lent here: right is {MOST_MEMORY} at most"
        )),
        memory => Ok(Command::TextFile {
            file: file.to_string(),
            memory: memory as usize,
        }),
    }
}

fn again(options: &[&str]) -> Result<Command, String> {
    let right = "right is 'again FILE' or 'again --seed S' with '--case N', '--run N', '--pair N', '--patch N' or '--text N'";
    let names = ["--seed", "--case", "--run", "--pair", "--patch", "--text"];
    let (seed, name) = match values(options, names)? {
        [Some(seed), Some(step), None, None, None, None] => (seed, Name::Step(step)),
        [Some(seed), None, Some(run), None, None, None] => (seed, Name::Run(run)),
        [Some(seed), None, None, Some(pair), None, None] => (seed, Name::Pair(pair)),
        [Some(seed), None, None, None, Some(patch), None] => (seed, Name::Patch(patch)),
        [Some(seed), None, None, None, None, Some(number)] => {
            return Ok(Command::AgainText { seed, number })
        }
        _ => return Err(format!("'again' does not know which case: {right}")),
    };
    Ok(Command::Again { seed, name })
}

#[cfg(test)]
mod tests {
    use super::*;

    fn parsed(line: &str) -> Result<Command, String> {
        parse(
            &line
                .split_whitespace()
                .map(str::to_string)
                .collect::<Vec<_>>(),
        )
    }

    #[test]
    fn right_lines() {
        assert_eq!(parsed("test"), Ok(Command::Test));
        assert_eq!(parsed("--help"), Ok(Command::Help));
        assert_eq!(
            parsed("soak --seed 0x10 --steps 0"),
            Ok(Command::Soak {
                amounts: Amounts {
                    steps: None,
                    runs: Some(200_000),
                    pairs: Some(1_000_000),
                    patches: Some(40_000)
                },
                seed: 16
            })
        );
        assert_eq!(
            parsed("pairs --count 7"),
            Ok(Command::Soak {
                amounts: Amounts {
                    pairs: Some(7),
                    ..Amounts::NONE
                },
                seed: 1
            })
        );
        assert_eq!(
            parsed("patches --count 7 --seed 2"),
            Ok(Command::Soak {
                amounts: Amounts {
                    patches: Some(7),
                    ..Amounts::NONE
                },
                seed: 2
            })
        );
        assert_eq!(
            parsed("hex --count 0 --seed 4"),
            Ok(Command::Texts {
                count: None,
                seed: 4
            })
        );
        assert_eq!(
            parsed("eights --seed 4"),
            Ok(Command::Eights {
                count: Some(10_000_000),
                seed: 4
            })
        );
        let file = |memory| {
            Ok(Command::TextFile {
                file: "a.hex".to_string(),
                memory,
            })
        };
        assert_eq!(parsed("hex a.hex"), file(1 << 20));
        assert_eq!(parsed("hex a.hex --memory 0"), file(0));
        assert_eq!(
            parsed("again --seed 3 --text 9"),
            Ok(Command::AgainText { seed: 3, number: 9 })
        );
        assert_eq!(
            parsed("again a.case"),
            Ok(Command::AgainFile("a.case".to_string()))
        );
        assert_eq!(
            parsed("again --seed 3 --run 9"),
            Ok(Command::Again {
                seed: 3,
                name: Name::Run(9)
            })
        );
        assert_eq!(
            parsed("again --seed 3 --pair 9"),
            Ok(Command::Again {
                seed: 3,
                name: Name::Pair(9)
            })
        );
        assert_eq!(
            parsed("again --patch 9 --seed 3"),
            Ok(Command::Again {
                seed: 3,
                name: Name::Patch(9)
            })
        );
        assert_eq!(
            parsed("again --case 9 --seed 3"),
            Ok(Command::Again {
                seed: 3,
                name: Name::Step(9)
            })
        );
    }

    #[test]
    fn wrong_lines_give_one_line() {
        let wrong = [
            ("", "no command"),
            ("tset", "'tset' is no command"),
            ("test fast", "'test' takes no argument, and 'fast' is one"),
            ("soak --steps", "--steps needs a number"),
            ("soak --steps many", "--steps: 'many' is no number"),
            ("soak --steps -1", "--steps: '-1' is no number"),
            ("soak --seed 1 --seed 2", "--seed is given twice"),
            ("soak --cases 5", "'--cases' is no option here"),
            ("pairs --steps 5", "'--steps' is no option here"),
            ("patches --pairs 5", "'--pairs' is no option here"),
            ("hex --steps 5", "'--steps' is no option here"),
            ("eights --runs 5", "'--runs' is no option here"),
            ("hex --count", "--count needs a number"),
            ("hex a.hex b.hex", "'b.hex' is no option here"),
            ("hex a.hex --count 1", "'--count' is no option here"),
            (
                "hex a.hex --memory 0x200001",
                "--memory: 2097153 bytes are not lent here",
            ),
            ("again", "'again' does not know which case"),
            ("again --seed 1", "'again' does not know which case"),
            (
                "again --seed 1 --case 2 --run 3",
                "'again' does not know which case",
            ),
            (
                "again --seed 1 --run 2 --pair 3",
                "'again' does not know which case",
            ),
            (
                "again --seed 1 --pair 2 --text 3",
                "'again' does not know which case",
            ),
            (
                "again --seed 1 --patch 2 --pair 3",
                "'again' does not know which case",
            ),
            ("again a b", "'a' is no option here"),
        ];
        for (line, start) in wrong {
            let error = parsed(line).expect_err(line);
            assert!(error.starts_with(start), "{line:?} gave {error:?}");
            assert!(!error.contains('\n'));
        }
    }
}
