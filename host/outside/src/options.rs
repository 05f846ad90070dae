//! The command line: which comparisons, from which seed, and which of the programs.

use std::ops::Range;
use terminal::options::{items, Item};

#[derive(Clone, Copy, PartialEq, Eq, Debug)]
pub enum Comparison {
    Objdump,
    As,
    Asm,
    Qemu,
    Patches,
    Image,
    Hex,
    C,
}

const COMPARISONS: [(&str, Comparison); 8] = [
    ("objdump", Comparison::Objdump),
    ("as", Comparison::As),
    ("asm", Comparison::Asm),
    ("qemu", Comparison::Qemu),
    ("patches", Comparison::Patches),
    ("image", Comparison::Image),
    ("hex", Comparison::Hex),
    ("c", Comparison::C),
];

#[derive(PartialEq, Eq, Debug)]
pub struct Options {
    pub comparisons: Vec<Comparison>,
    pub seed: u64,
    /// The numbers of the programs that QEMU runs.
    pub programs: Range<u64>,
}

/// What `given` asks for; none if it asks for help.
pub fn read(given: &[String]) -> Result<Option<Options>, String> {
    let mut options = Options {
        comparisons: Vec::new(),
        seed: 1,
        programs: 0..40,
    };
    let given: Vec<&str> = given.iter().map(String::as_str).collect();
    for item in items(&given, &["--seed", "--programs", "--program"]) {
        match item {
            Item::Word("--help" | "-h") => return Ok(None),
            Item::Word(name) => options.comparisons.push(comparison(name)?),
            Item::Alone(option) => {
                return Err(format!(
                    "{option}: a number must follow, such as {option} 7"
                ))
            }
            Item::NoNumber(option, value) => {
                return Err(format!(
                    "{option}: {value} is not a number from 0 to 18446744073709551615, such as 7"
                ))
            }
            Item::Number(0, seed) => options.seed = seed,
            Item::Number(1, count) => options.programs = 0..count,
            Item::Number(_, program) => options.programs = program..program.saturating_add(1),
        }
    }
    if options.comparisons.is_empty() {
        options.comparisons = COMPARISONS.map(|(_, comparison)| comparison).to_vec();
    }
    Ok(Some(options))
}

fn comparison(name: &str) -> Result<Comparison, String> {
    let known = COMPARISONS.iter().find(|(known, _)| *known == name);
    known.map(|(_, comparison)| *comparison).ok_or_else(|| {
        format!("{name}: no such comparison or option; there are objdump, as, asm, qemu, patches, image, hex, c, --seed S, --programs N and --program N")
    })
}

#[cfg(test)]
mod tests {
    use super::*;

    fn of(line: &str) -> Result<Option<Options>, String> {
        read(
            &line
                .split_whitespace()
                .map(str::to_string)
                .collect::<Vec<_>>(),
        )
    }

    #[test]
    fn nothing_means_everything() {
        let options = of("").unwrap().unwrap();
        assert_eq!(
            options.comparisons,
            [
                Comparison::Objdump,
                Comparison::As,
                Comparison::Asm,
                Comparison::Qemu,
                Comparison::Patches,
                Comparison::Image,
                Comparison::Hex,
                Comparison::C
            ]
        );
        assert_eq!((options.seed, options.programs), (1, 0..40));
    }

    #[test]
    fn one_program_of_one_seed() {
        let options = of("qemu --seed 9 --program 3").unwrap().unwrap();
        assert_eq!(
            options,
            Options {
                comparisons: vec![Comparison::Qemu],
                seed: 9,
                programs: 3..4
            }
        );
        assert_eq!(of("qemu --help"), Ok(None));
    }

    #[test]
    fn what_is_wrong_is_named() {
        assert!(of("gdb")
            .unwrap_err()
            .starts_with("gdb: no such comparison or option"));
        assert!(of("--seed")
            .unwrap_err()
            .starts_with("--seed: a number must follow"));
        assert!(of("--seed x")
            .unwrap_err()
            .starts_with("--seed: x is not a number"));
    }
}
