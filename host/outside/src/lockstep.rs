//! Random programs, step by step beside QEMU: before each instruction, pc, the mode, all 32
//! registers and the thirteen CSRs that both have must be equal, on the proved simulator and on the
//! second one.
//!
//! The hart starts with the registers that QEMU's boot code leaves. Where an address has nothing to
//! fetch, QEMU's log has no entry before the fault, so that our side takes two steps there. Two
//! differences in tval are known, and one in CTZW's count (`Choice`): there our value is checked by
//! itself and then set to QEMU's, so that the programs stay together. What programs do not do,
//! because the two may differ there, is written in program/body.rs, program/csrs.rs and, for MPRV,
//! program.rs. The fixed programs that patch themselves (program/patched.rs) are also compared by runs,
//! since a run may remember what it has decoded.

use crate::gnu;
use crate::program::{generate, patched, Program, BASE};
use crate::qemu::{self, Entry, Qemu, LOGGED};
use crate::report::Report;
use crate::side::{proved, second, Side, Simulator};
use formats::extensions::added;
use sporhulma::word::{MODE, MTVAL, PC, STVAL};
use sporhulma::{Hart, FAMILIES, REST};
use std::ops::Range;

/// After so many programs with a difference, the rest would tell nothing new.
const ENOUGH: u64 = 5;

pub fn compare(seed: u64, programs: Range<u64>) -> Result<u64, String> {
    let mut report = Report::new("qemu");
    let (mut steps, mut run) = (0, 0);
    for number in programs {
        report.progress(format!("program {number}, {steps} instructions so far"));
        let program = generate(seed, number);
        let place = format!("tools/outside qemu --seed {seed} --program {number}");
        let logged = one_program(&mut report, &program, &place)
            .map_err(|wrong| format!("{place}: {wrong}"))?;
        steps += logged.after.len();
        run += 1;
        if report.differences() >= ENOUGH {
            break;
        }
    }
    Ok(report.finish(format!(
        "{steps} instructions in {run} programs, seed {seed}, {}",
        qemu::version()?
    )))
}

/// The fixed programs that patch themselves, in the same way, and then by runs.
pub fn compare_patched() -> Result<u64, String> {
    let mut report = Report::new("patches");
    let (mut steps, mut run) = (0, 0);
    for (name, program) in patched() {
        report.progress(format!("{name}, {steps} instructions so far"));
        let place = format!("tools/outside patches (program '{name}')");
        let logged = one_program(&mut report, &program, &place)
            .map_err(|wrong| format!("{place}: {wrong}"))?;
        for simulator in [proved(), second()] {
            if let Err(different) = by_runs(&mut report, simulator, &program, &logged) {
                report.difference(format!("{different}; again: {place}"));
            }
        }
        steps += logged.after.len();
        run += 1;
    }
    Ok(report.finish(format!(
        "{steps} instructions in {run} programs that patch themselves, {}",
        qemu::version()?
    )))
}

/// What QEMU logged of a program: the registers at its start, and the state after each instruction.
struct Logged {
    start: [u64; 32],
    after: Vec<Entry>,
}

/// Runs one program up to its end or to the first difference; gives what QEMU logged.
fn one_program(report: &mut Report, program: &Program, place: &str) -> Result<Logged, String> {
    let image = gnu::file("program.bin")?;
    gnu::write(&image, &program.image)?;
    let mut qemu = Qemu::start(&image)?;
    let mut entry = qemu.entry()?;
    while entry.rest[PC] != BASE {
        entry = qemu.entry()?;
    }
    let mut sides = [proved(), second()].map(|simulator| Side::new(simulator, program));
    sides.iter_mut().for_each(|side| side.hart.x = entry.x);
    let mut logged = Logged {
        start: entry.x,
        after: Vec::new(),
    };
    while sides[0].pc() != program.end {
        tally(report, &sides[0]);
        entry = qemu.entry()?;
        logged.after.push(entry.clone());
        let steps = logged.after.len();
        for side in &mut sides {
            if let Err(different) = one_step(report, side, &entry) {
                let name = side.simulator.name;
                report.difference(format!("step {steps}, {name} {different}; again: {place}"));
                return Ok(logged);
            }
        }
    }
    Ok(logged)
}

/// To each state that QEMU logged in one run, from the start or from behind the last trap: a run may do many steps in another way than one.
/// An error says what differs first.
fn by_runs(
    report: &mut Report,
    simulator: Simulator,
    program: &Program,
    logged: &Logged,
) -> Result<(), String> {
    let mut from = Side::new(simulator, program);
    from.hart.x = logged.start;
    let (mut steps, name) = (0, simulator.name);
    for entry in &logged.after {
        steps += 1;
        let mut side = from.clone();
        let at = |different: String| format!("{name}, a run of {steps} steps: {different}");
        let cause = side.run(steps).map_err(at)?;
        let different = differences(&side.hart, entry);
        if !different.is_empty() {
            return Err(at(different.join("; ")));
        }
        report.count(format!(
            "{name}: runs of {:>4} steps and more",
            steps / 512 * 512
        ));
        if cause.is_some() {
            (from, steps) = (side, 0);
        }
    }
    Ok(())
}

/// Takes `side` to where QEMU's next entry is and compares; an error says what differs.
fn one_step(report: &mut Report, side: &mut Side, entry: &Entry) -> Result<(), String> {
    let (pc, word, before) = (side.pc(), side.word(), side.hart);
    let text = word.map_or("nothing".to_string(), |word| disasm::text(word, pc));
    let at = |different: String| format!("at {pc:#x}, `{text}`: {different}");
    let mut cause = side.step().map_err(at)?;
    if cause.is_none() && side.word().is_none() {
        cause = side.step().map_err(at)?;
    }
    let name = side.simulator.name;
    let choice = word.and_then(|word| match cause {
        Some(cause) => evened_tval(&mut side.hart, entry, cause, word, pc),
        None => evened_count(&mut side.hart, entry, word, &before),
    });
    if let Some(choice) = choice {
        report.count(format!("{name}: known choice: {}", choice.text()));
    }
    if let Some(cause) = cause {
        report.count(format!("{name}: traps of cause {cause:>2}"));
    }
    match differences(&side.hart, entry) {
        different if different.is_empty() => Ok(()),
        different => Err(at(different.join("; "))),
    }
}

/// Sets the tval of the trap that `word` at `pc` took to QEMU's, where they differ by a known choice.
fn evened_tval(hart: &mut Hart, entry: &Entry, cause: u64, word: u32, pc: u64) -> Option<Choice> {
    let tval = if hart.rest[MODE] == 3 { MTVAL } else { STVAL };
    let choice = known_choice(cause, word, pc, hart.rest[tval], entry.rest[tval])?;
    hart.rest[tval] = entry.rest[tval];
    Some(choice)
}

/// Sets what `word` wrote to QEMU's, where they differ by a known count; `before` is the hart before it.
fn evened_count(hart: &mut Hart, entry: &Entry, word: u32, before: &Hart) -> Option<Choice> {
    let [rd, rs1] = [7, 15].map(|at| (word >> at) as usize & 31);
    let choice = known_count(word, before.x[rs1], hart.x[rd], entry.x[rd])?;
    hart.x[rd] = entry.x[rd];
    Some(choice)
}

/// Counts the instruction that is about to be executed.
fn tally(report: &mut Report, side: &Side) {
    let word = side.word();
    let family = word.map_or(0, sporhulma::family) as usize;
    let name = match word.and_then(added) {
        Some(encoding) => format!("extension {}", encoding.extension),
        // QEMU 7.2 has none of the families behind the CSRs'.
        None => FAMILIES[..18].get(family).unwrap_or(&"other").to_string(),
    };
    report.count(format!("instructions: {name}"));
    report.count(format!(
        "instructions in {}",
        ["U", "S", "?", "M"][side.hart.rest[MODE] as usize & 3]
    ));
}

/// Where QEMU's tval or count and ours differ by a choice that is known.
#[derive(Clone, Copy, PartialEq, Eq, Debug)]
enum Choice {
    /// EBREAK: the manual allows pc and 0. The hart has pc (docs/HART.md, 4.25), QEMU 7.2 has 0.
    Breakpoint,
    /// A JAL or branch to a misaligned target: the manual has the target or 0. The hart has the
    /// target (docs/HART.md, 4.20); QEMU 7.2 has the jump's own pc, which is its mistake.
    MisalignedTarget,
    /// CTZW of a lower half of 0 under one that is not: the manual has 32. QEMU 7.2 has the trailing
    /// zeros of all 64 bits, which is its mistake.
    TrailingZeros,
}

impl Choice {
    fn text(self) -> &'static str {
        match self {
            Choice::Breakpoint => "EBREAK, tval is pc and not 0",
            Choice::MisalignedTarget => "misaligned target, tval is the target and not pc",
            Choice::TrailingZeros => "CTZW of a lower half of 0 is 32, and QEMU 7.2 counts on",
        }
    }
}

/// The known choice by which the tvals differ; none if they are equal, or differ otherwise.
fn known_choice(cause: u64, word: u32, pc: u64, ours: u64, theirs: u64) -> Option<Choice> {
    match (cause, word & 0x7f) {
        _ if ours == theirs => None,
        (3, _) => (ours == pc && theirs == 0).then_some(Choice::Breakpoint),
        (0, 0x63 | 0x6f) => (disasm::text(word, pc).ends_with(&format!("{ours:#x}"))
            && theirs == pc)
            .then_some(Choice::MisalignedTarget),
        _ => None,
    }
}

/// The known choice by which the counts differ that `word` gave of `operand`; none if it is no such
/// word, or they are equal, or differ otherwise.
fn known_count(word: u32, operand: u64, ours: u64, theirs: u64) -> Option<Choice> {
    let is_ctzw = added(word).is_some_and(|encoding| encoding.name == "ctzw");
    let mistaken = theirs == u64::from(operand.trailing_zeros());
    let zero = operand as u32 == 0 && operand != 0;
    (is_ctzw && zero && ours == 32 && ours != theirs && mistaken).then_some(Choice::TrailingZeros)
}

/// What differs, in words.
fn differences(hart: &Hart, entry: &Entry) -> Vec<String> {
    let line =
        |name: &str, ours: u64, theirs: u64| format!("{name} is 0x{ours:x}, QEMU's 0x{theirs:x}");
    let registers = (0..32)
        .filter(|&n| hart.x[n] != entry.x[n])
        .map(|n| line(disasm::register(n), hart.x[n], entry.x[n]));
    let rest = LOGGED
        .into_iter()
        .filter(|&n| hart.rest[n] != entry.rest[n])
        .map(|n| line(REST[n], hart.rest[n], entry.rest[n]));
    registers.chain(rest).collect()
}

#[cfg(test)]
mod tests {
    use super::*;
    use crate::qemu::tests::distinct;
    use crate::side::word_at;

    #[test]
    fn each_word_is_compared() {
        let entry = distinct();
        let hart = Hart {
            x: entry.x,
            rest: entry.rest,
        };
        assert!(differences(&hart, &entry).is_empty());
        for n in 0..32 {
            let mut wrong = hart;
            wrong.x[n] ^= 1 << 63;
            assert_eq!(differences(&wrong, &entry).len(), 1, "register {n}");
        }
        for n in LOGGED {
            let mut wrong = hart;
            wrong.rest[n] ^= 1;
            assert_eq!(differences(&wrong, &entry).len(), 1, "{}", REST[n]);
        }
    }

    /// What QEMU should log of a program, by the second simulator.
    fn stepped(program: &Program) -> Logged {
        let mut side = Side::new(second(), program);
        let mut after = Vec::new();
        while side.pc() != program.end {
            side.step().expect("no refusal");
            let Hart { x, rest } = side.hart;
            after.push(Entry { x, rest });
        }
        Logged {
            start: Hart::fresh().x,
            after,
        }
    }

    /// A run that remembers each word by its pc and never looks again.
    fn forgets_nothing(
        hart: &mut Hart,
        memory: &mut [u8],
        map: &[u64],
        steps: u64,
    ) -> Result<Option<u64>, String> {
        let mut known = std::collections::BTreeMap::new();
        for _ in 0..steps {
            let mut own = ::second::Hart::from_words(&hart.x, &hart.rest);
            let word = word_at(hart, memory, map).expect("there is code everywhere");
            let word = *known.entry(own.pc).or_insert(word);
            let answer = ::second::step_word(&mut own, memory, map, word);
            (hart.x, hart.rest) = own.to_words();
            if answer.trapped {
                return Ok(Some(answer.cause));
            }
        }
        Ok(None)
    }

    #[test]
    fn a_run_that_forgets_nothing_is_found() {
        let report = &mut Report::new("test");
        for (name, program) in patched() {
            let logged = stepped(&program);
            assert_eq!(
                by_runs(report, second(), &program, &logged),
                Ok(()),
                "{name}"
            );
            let mut faulty = second();
            faulty.run = forgets_nothing;
            let found = by_runs(report, faulty, &program, &logged);
            assert!(found.is_err(), "{name}");
        }
    }

    #[test]
    fn only_the_known_choices_pass() {
        let (jal, ebreak, pc) = (0x0060006f, 0x00100073, BASE);
        assert_eq!(known_choice(3, ebreak, pc, pc, 0), Some(Choice::Breakpoint));
        assert_eq!(known_choice(3, ebreak, pc, pc + 4, 0), None);
        assert_eq!(
            known_choice(0, jal, pc, pc + 6, pc),
            Some(Choice::MisalignedTarget)
        );
        assert_eq!(known_choice(0, jal, pc, pc + 2, pc), None);
        assert_eq!(known_choice(0, jal, pc, pc + 6, 0), None);
        assert_eq!(known_choice(2, jal, pc, pc, 0), None);
    }

    #[test]
    fn only_the_count_that_qemu_gets_wrong_passes() {
        let (ctz, ctzw, known) = (0x6015_9513, 0x6015_951b, Some(Choice::TrailingZeros));
        assert_eq!(known_count(ctzw, 1 << 40, 32, 40), known);
        assert_eq!(known_count(ctzw, 0, 32, 64), None);
        assert_eq!(known_count(ctzw, 1 << 32, 32, 32), None);
        assert_eq!(known_count(ctzw, 1 << 40, 40, 32), None);
        assert_eq!(known_count(ctzw, 1 << 40, 32, 41), None);
        assert_eq!(known_count(ctzw, 1 << 31, 32, 31), None);
        assert_eq!(known_count(ctz, 1 << 40, 32, 40), None);
    }
}
