//! What the cases were, counted, so that a reader sees that the bias works and a test can demand that nothing is missing.

use crate::added::Added;
use crate::again::take_again;
use crate::case::{Call, Case};
use crate::lifted::Lifted;
use crate::pair::Side;
use crate::state::View;
use sporhulma::family::{EBREAK, ECALL, ILLEGAL};
use sporhulma::word::{MODE, MTVAL, STVAL};
use sporhulma::FAMILIES;
use std::fmt::Write;

/// The families whose every word traps.
const TRAPPING: [u64; 3] = [ILLEGAL, ECALL, EBREAK];

/// A cause with the tval that tells two kinds apart; other causes have one kind.
#[derive(Clone, Copy, PartialEq, Eq)]
struct Cause {
    number: u64,
    tval: Option<u64>,
}

const CAUSES: usize = 16;

/// Every cause that the hart has.
const fn causes() -> [Cause; CAUSES] {
    const NUMBERS: [u64; CAUSES] = [0, 1, 2, 3, 4, 5, 6, 7, 8, 9, 11, 12, 13, 15, 18, 18];
    let mut all = [Cause {
        number: 0,
        tval: None,
    }; CAUSES];
    let mut at = 0;
    while at < CAUSES {
        all[at].number = NUMBERS[at];
        at += 1;
    }
    all[CAUSES - 2].tval = Some(2);
    all[CAUSES - 1].tval = Some(3);
    all
}

#[derive(Default)]
pub struct Mix {
    steps: u64,
    given_words: u64,
    modes: [u64; 4],
    untrapped: u64,
    to_mode: [u64; 4],
    families: [u64; 24],
    families_untrapped: [u64; 24],
    causes: [u64; CAUSES],
    refusals: [u64; 5],
    runs: u64,
    run_calls: u64,
    run_traps: u64,
    /// Calls of 0, under 10, under 100, under 1000 and more steps.
    run_lengths: [u64; 5],
    run_steps: u64,
    other_causes: u64,
    /// Rule 7.2 e: of steps, and how many calls of runs start where it lifts masking.
    lifted: Lifted,
    run_lifted: u64,
    /// M and Zbb: of steps, and of those of runs.
    added: Added,
    run_added: Added,
    memory: Vec<u8>,
}

/// A run's call is looked at up to so many steps: most are shorter.
const LOOKED_AT: u64 = 200;

impl Mix {
    /// Counts a step and what it left; `word` is the instruction, where it is known.
    pub fn note_step(&mut self, case: &Case, word: Option<u32>, left: &Side) {
        self.steps += 1;
        self.given_words += u64::from(matches!(case.call, Call::StepWord(_)));
        let Some(answer) = left.answer else { return };
        if answer.refusal != 0 {
            self.note_refusal(answer.refusal);
            return;
        }
        self.modes[case.hart.rest[MODE] as usize & 3] += 1;
        self.untrapped += u64::from(!answer.trapped);
        let executed = !answer.trapped || self.note_trap(answer.cause, left);
        let word = word.filter(|_| executed);
        self.added.note(&case.hart, word);
        if let Some(word) = word {
            let family = second::family(word) as usize % FAMILIES.len();
            self.families[family] += 1;
            self.families_untrapped[family] += u64::from(!answer.trapped);
            self.lifted.note(&case.hart, word, answer.trapped);
        }
    }

    /// Counts a call of a run and what it left.
    pub fn note_run(&mut self, first: bool, case: &Case, left: &Side) {
        self.runs += u64::from(first);
        self.run_calls += 1;
        let Some(answer) = left.answer else { return };
        if answer.refusal != 0 {
            self.note_refusal(answer.refusal);
            return;
        }
        self.run_lifted += u64::from(View::of(&case.hart.rest).data.spared);
        self.run_steps += answer.count;
        self.run_lengths[answer
            .count
            .checked_ilog10()
            .map_or(0, |log| log.min(3) as usize + 1)] += 1;
        if answer.trapped {
            self.run_traps += 1;
            self.note_trap(answer.cause, left);
        }
        let looked_at = answer.count.min(LOOKED_AT);
        take_again(case, looked_at, &mut self.memory, |step| {
            let executed = !step.answer.trapped || step.answer.cause == 2;
            let word = step.word.filter(|_| executed);
            self.run_added.note(step.before, word);
        });
    }

    fn note_refusal(&mut self, number: u64) {
        if let Some(count) = self.refusals.get_mut(number as usize) {
            *count += 1;
        }
    }

    /// Counts a trap; true if the word had been fetched and passed the pad check.
    fn note_trap(&mut self, number: u64, left: &Side) -> bool {
        let mode = left.hart.rest[MODE] as usize & 3;
        self.to_mode[mode] += 1;
        let tval = left.hart.rest[if mode == 1 { STVAL } else { MTVAL }];
        let known = |cause: &Cause| {
            cause.number == number && cause.tval.is_none_or(|wanted| wanted == tval)
        };
        match causes().iter().position(known) {
            Some(at) => self.causes[at] += 1,
            None => self.other_causes += 1,
        }
        !(number == 1 || number == 12 || number == 18 && tval == 2)
    }

    /// What a reader of the mix would miss, a sentence each. `runs` tells whether runs were made, which alone give refusal 4
    /// and have their own demands for M and Zbb.
    pub fn complaints(&self, runs: bool) -> Vec<String> {
        let mut complaints = Vec::new();
        for (at, name) in FAMILIES.iter().enumerate() {
            if self.families[at] == 0 {
                complaints.push(format!("family {at} ({name}) was never seen"));
            } else if self.families_untrapped[at] == 0 && !TRAPPING.contains(&(at as u64)) {
                complaints.push(format!(
                    "family {at} ({name}) was never seen without a trap"
                ));
            }
        }
        for (count, cause) in self.causes.iter().zip(causes()) {
            if *count == 0 {
                complaints.push(format!("cause {} was never seen", cause_name(cause)));
            }
        }
        for number in 1..=if runs { 4 } else { 3 } {
            if self.refusals[number] == 0 {
                complaints.push(format!("refusal {number} was never seen"));
            }
        }
        complaints.extend(self.lifted.complaint(self.steps));
        complaints.extend(self.added.complaint());
        if runs {
            complaints.extend(self.run_added.complaint_of_runs());
        }
        if self.other_causes > 0 {
            complaints.push(format!(
                "{} traps had a cause that no hart has",
                self.other_causes
            ));
        }
        complaints
    }

    /// Under thirty lines.
    pub fn text(&self) -> String {
        let mut text = self.steps_text();
        let _ = writeln!(
            text,
            "runs       {} in {} calls with {} steps; {} calls ended with a trap",
            self.runs, self.run_calls, self.run_steps, self.run_traps
        );
        let [none, ones, tens, hundreds, more] = self.run_lengths;
        let _ = writeln!(
            text,
            "           calls of 0 steps {none}, under 10 {ones}, under 100 {tens}, under 1000 {hundreds}, more {more}"
        );
        let (title, counts) = self.lifted.text(self.steps);
        let _ = writeln!(text, "A2         {title};");
        let _ = writeln!(
            text,
            "           {} calls of runs start so",
            self.run_lifted
        );
        list(&mut text, "", counts, 8);
        let (title, counts) = self.added.text(&self.run_added);
        list(&mut text, "A3", vec![title], 1);
        list(&mut text, "", counts, 8);
        let refusals = (1..5).map(|number| format!("{number}: {}", self.refusals[number]));
        list(&mut text, "refusals", refusals.collect(), 4);
        let _ = writeln!(
            text,
            "traps      of steps and runs: to S {}, to M {}",
            self.to_mode[1], self.to_mode[3]
        );
        let causes = causes();
        let causes = causes.iter().zip(self.causes);
        let causes = causes.map(|(cause, count)| format!("{}: {count}", cause_name(*cause)));
        list(&mut text, "causes", causes.collect(), 8);
        let families = FAMILIES
            .iter()
            .zip(self.families)
            .zip(self.families_untrapped);
        let families = families.map(|((name, all), free)| format!("{name} {all}/{free}"));
        list(&mut text, "families", families.collect(), 5);
        text.push_str("           (family: steps that reached it / of these without a trap)\n");
        text
    }

    fn steps_text(&self) -> String {
        let share = |part: u64| 100.0 * part as f64 / self.steps.max(1) as f64;
        let [user, supervisor, _, machine] = self.modes;
        let accepted: u64 = self.modes.iter().sum();
        format!(
            "steps      {}: {} fetched, {} with a given word; in U {user}, S {supervisor}, M {machine}\n\
             \x20          {:.1} % taken without a trap, {:.1} % trapped, {:.1} % refused\n",
            self.steps,
            self.steps - self.given_words,
            self.given_words,
            share(self.untrapped),
            share(accepted - self.untrapped),
            share(self.steps - accepted)
        )
    }
}

fn cause_name(cause: Cause) -> String {
    match cause.tval {
        Some(tval) => format!("{} tval {tval}", cause.number),
        None => cause.number.to_string(),
    }
}

/// A list over lines with a title before the first.
pub fn list(text: &mut String, title: &str, items: Vec<String>, a_line: usize) {
    for (at, row) in items.chunks(a_line).enumerate() {
        let title = if at == 0 { title } else { "" };
        let _ = writeln!(text, "{title:<10} {}", row.join(", "));
    }
}
