//! The command `differ`: see `differ --help` (src/options.rs) for what it does.

use differ::case::Case;
use differ::decoder;
use differ::eights;
use differ::eights::soak::Eights;
use differ::hex;
use differ::hex::check::Check;
use differ::hex::make::{Made, Sort};
use differ::hex::soak::Texts;
use differ::options::{parse, Amounts, Command, HELP};
use differ::pair::Pair;
use differ::simulator::{Proved, Second, Simulator};
use differ::soak::{Failure, Name, Soak};
use differ::text;
use sporhulma::FAMILIES;
use std::path::{Path, PathBuf};
use std::process::ExitCode;
use std::sync::atomic::{AtomicU64, Ordering::Relaxed};
use std::time::{Duration, Instant};
use terminal::progress::Progress;
use terminal::say;

const TEST_SEED: u64 = 1;
const TEST: Amounts = Amounts {
    steps: Some(1_000_000),
    runs: Some(20_000),
    pairs: Some(100_000),
    patches: Some(4_000),
};
const TEST_TEXTS: Option<u64> = Some(100_000);
const TEST_EIGHTS: Option<u64> = Some(2_000_000);

/// Cases between two looks at the clock.
const STEPS_AT_ONCE: u64 = 5_000;
const RUNS_AT_ONCE: u64 = 100;
const PAIRS_AT_ONCE: u64 = 500;
const PATCHES_AT_ONCE: u64 = 20;
const TEXTS_AT_ONCE: u64 = 1_000;
const EIGHTS_AT_ONCE: u64 = 10_000;

fn main() -> ExitCode {
    let args: Vec<String> = std::env::args().skip(1).collect();
    let command = match parse(&args) {
        Ok(command) => command,
        Err(error) => return usage(&error),
    };
    match command {
        Command::Help => {
            say!("{}", HELP.trim_end());
            ExitCode::SUCCESS
        }
        Command::Test => test(),
        Command::Soak { amounts, seed } => {
            let soak = soak(seed, amounts);
            status(soak.failures.is_empty())
        }
        Command::AgainFile(file) => again_file(&file),
        Command::Again { seed, name } => again(seed, name),
        Command::Texts { count, seed } => {
            let texts = texts(seed, count);
            status(texts.failures.is_empty())
        }
        Command::AgainText { seed, number } => again_text(seed, number),
        Command::TextFile { file, memory } => text_file(&file, memory),
        Command::Eights { count, seed } => {
            let eights = eights(seed, count);
            status(eights.failures.is_empty())
        }
        Command::Decoder => decoder(),
    }
}

fn status(good: bool) -> ExitCode {
    ExitCode::from(if good { 0 } else { 1 })
}

fn usage(error: &str) -> ExitCode {
    eprintln!("differ: {error}");
    ExitCode::from(2)
}

/// A line about once a second.
const SECOND: Duration = Duration::from_secs(1);

fn show(progress: &Progress, line: impl FnOnce() -> String) {
    progress.show(|| format!("{}, {} s", line(), progress.seconds() as u64));
}

fn test() -> ExitCode {
    let soak = soak(TEST_SEED, TEST);
    let texts = texts(TEST_SEED, TEST_TEXTS);
    let eights = eights(TEST_SEED, TEST_EIGHTS);
    let mut complaints = soak.mix.complaints(true);
    complaints.extend(soak.seen.complaints());
    complaints.extend(soak.patched.complaints());
    complaints.extend(texts.seen.complaints());
    complaints.extend(eights.complaints());
    // A test that ended early because of differences has seen little: only these are said then.
    if !complaints.is_empty() && !soak.done() && !texts.done() && !eights.done() {
        say!("differ: FAILED: {}", complaints.join("; "));
    }
    let failures = soak.failures.len() + texts.failures.len() + eights.failures.len();
    status(complaints.is_empty() && failures == 0)
}

/// The cases of one kind: how many are made, how many are wanted, and how long they took.
struct Part {
    made: u64,
    wanted: Option<u64>,
    took: Duration,
}

impl Part {
    fn new(wanted: Option<u64>) -> Part {
        Part {
            made: 0,
            wanted,
            took: Duration::ZERO,
        }
    }

    fn more(&self) -> bool {
        self.wanted.is_none_or(|wanted| self.made < wanted)
    }

    /// The next cases, at most `most`, unless the soak is done.
    fn go_on<L: Simulator, R: Simulator>(
        &mut self,
        most: u64,
        soak: &mut Soak<L, R>,
        case: fn(&mut Soak<L, R>, u64),
    ) {
        let start = Instant::now();
        let end = self.made + most;
        while !soak.done() && self.made < end && self.more() {
            case(soak, self.made);
            self.made += 1;
        }
        self.took += start.elapsed();
    }
}

/// Steps, runs, pairs and patches by turns. Prints the mix and the verdict.
fn soak(seed: u64, amounts: Amounts) -> Soak<Proved, Second> {
    let mut soak = Soak::new(Proved, Second, seed);
    let progress = Progress::lines(SECOND);
    let mut parts = [amounts.steps, amounts.runs, amounts.pairs, amounts.patches].map(Part::new);
    let mut printed = 0;
    while !soak.done() && parts.iter().any(Part::more) {
        let [steps, runs, pairs, patches] = &mut parts;
        steps.go_on(STEPS_AT_ONCE, &mut soak, Soak::step);
        runs.go_on(RUNS_AT_ONCE, &mut soak, Soak::run);
        pairs.go_on(PAIRS_AT_ONCE, &mut soak, Soak::pair);
        patches.go_on(PATCHES_AT_ONCE, &mut soak, Soak::patch);
        for failure in &soak.failures[printed..] {
            progress.aside(|| print_failure(failure));
        }
        printed = soak.failures.len();
        show(&progress, || {
            format!("{}, {printed} differences", counted(&parts))
        });
    }
    progress.clear();
    print_mix(&soak, &parts);
    let [.., pairs, patches] = parts.each_ref().map(|part| part.took.as_secs_f64());
    say!(
        "differ: {printed} differences in {} of seed {seed}, {:.1} s ({pairs:.1} s the pairs, {patches:.1} s the patches)",
        counted(&parts),
        progress.seconds()
    );
    soak
}

fn counted(parts: &[Part; 4]) -> String {
    let [steps, runs, pairs, patches] = parts.each_ref().map(|part| part.made);
    format!("{steps} steps, {runs} runs, {pairs} pairs and {patches} patches")
}

/// What the cases were, of the kinds that were made.
fn print_mix(soak: &Soak<Proved, Second>, parts: &[Part; 4]) {
    let [steps, runs, pairs, patches] = parts.each_ref().map(|part| part.made);
    for (made, text) in [
        (steps + runs, soak.mix.text()),
        (pairs, soak.seen.text()),
        (patches, soak.patched.text()),
    ] {
        if made > 0 {
            say!("{}", text.trim_end());
        }
    }
}

/// Texts one after the other. Prints what they were and the verdict.
fn texts(seed: u64, wanted: Option<u64>) -> Texts<Proved, Second> {
    let mut texts = Texts::new(Proved, Second, seed);
    let progress = Progress::lines(SECOND);
    let (mut made, mut printed) = (0, 0);
    while !texts.done() && wanted.is_none_or(|wanted| made < wanted) {
        let end = made + TEXTS_AT_ONCE;
        while !texts.done() && made < wanted.unwrap_or(end).min(end) {
            texts.text(made);
            made += 1;
        }
        for failure in &texts.failures[printed..] {
            progress.aside(|| print_text(failure));
        }
        printed = texts.failures.len();
        show(&progress, || format!("{made} texts, {printed} differences"));
    }
    progress.clear();
    say!("{}", texts.seen.text().trim_end());
    say!(
        "differ: {printed} differences in {made} texts of seed {seed}, {:.1} s",
        progress.seconds()
    );
    texts
}

/// Eights one after the other. Prints what they were and the verdict; a failure has its numbers in its line.
fn eights(seed: u64, wanted: Option<u64>) -> Eights<Proved> {
    let mut eights = Eights::new(Proved, seed);
    let progress = Progress::lines(SECOND);
    let mut printed = 0;
    while !eights.done() && wanted.is_none_or(|wanted| eights.made < wanted) {
        let end = eights.made + EIGHTS_AT_ONCE;
        while !eights.done() && eights.made < wanted.unwrap_or(end).min(end) {
            eights.next();
        }
        for failure in &eights.failures[printed..] {
            progress.aside(|| say!("DIFFERENCE: {failure}"));
        }
        printed = eights.failures.len();
        show(&progress, || {
            format!("{} eights, {printed} differences", eights.made)
        });
    }
    progress.clear();
    say!("{}", eights.text().trim_end());
    say!(
        "differ: {printed} differences in {} eights of seed {seed}, {:.1} s",
        eights.made,
        progress.seconds()
    );
    eights
}

/// Where failing cases are written: target/differ of the repository that this was built in.
fn folder() -> PathBuf {
    Path::new(env!("CARGO_MANIFEST_DIR")).join("../../target/differ")
}

fn print_failure(failure: &Failure) {
    say!("DIFFERENCE: {}", failure.title());
    for line in &failure.differences {
        say!("    {line}");
    }
    say!("  again: {}", failure.again());
    match failure.save(&folder()) {
        Ok(paths) => {
            for path in paths {
                let path = path.canonicalize().unwrap_or(path);
                say!("  the call alone: tools/differ again {}", path.display());
            }
            if let Name::Patch(_) = failure.name {
                say!("  (this compares the simulators on that call; a run with its two parts, only the line 'again')");
            }
            if failure.other.is_some() {
                say!("  (these compare the simulators on one memory each; the two memories, only the line 'again')");
            }
        }
        Err(error) => say!(
            "  its case could not be written to {}: {error}",
            folder().display()
        ),
    }
}

fn print_text(failure: &hex::soak::Failure) {
    say!("DIFFERENCE: {}", failure.title());
    for line in &failure.differences {
        say!("    {line}");
    }
    say!("  again: {}", failure.again());
    let memory = failure.made.memory.len();
    match failure.save(&folder()) {
        Ok(path) => {
            let path = path.canonicalize().unwrap_or(path);
            let path = path.display();
            say!("  the text alone: tools/differ hex {path} --memory {memory}");
        }
        Err(error) => say!(
            "  its text could not be written to {}: {error}",
            folder().display()
        ),
    }
}

fn again_text(seed: u64, number: u64) -> ExitCode {
    let mut texts = Texts::new(Proved, Second, seed);
    texts.text(number);
    texts.failures.iter().for_each(print_text);
    if texts.failures.is_empty() {
        say!("differ: no difference in text {number} of seed {seed}");
    }
    status(texts.failures.is_empty())
}

fn text_file(file: &str, memory: usize) -> ExitCode {
    let text = match std::fs::read(file) {
        Ok(text) => text,
        Err(error) => return usage(&format!("{file}: cannot be read: {error}")),
    };
    let made = Made {
        memory: vec![0x5A; memory],
        text,
        sort: Sort::Mutated,
        features: Vec::new(),
        lines: 0,
        expected: None,
    };
    let mut check = Check::default();
    let wrong = check.check(&Proved, &Second, &made);
    match wrong.is_empty() {
        true => say!("{file}: no difference: {}", check.left.answer_text()),
        false => say!("{file}: DIFFERENCE"),
    }
    for line in &wrong {
        say!("    {line}");
    }
    status(wrong.is_empty())
}

fn again(seed: u64, name: Name) -> ExitCode {
    let mut soak = Soak::new(Proved, Second, seed);
    match name {
        Name::Step(number) => soak.step(number),
        Name::Run(number) => soak.run(number),
        Name::Pair(number) => soak.pair(number),
        Name::Patch(number) => soak.patch(number),
    }
    for failure in &soak.failures {
        print_failure(failure);
    }
    if soak.failures.is_empty() {
        say!("differ: no difference in {name} of seed {seed}");
    }
    status(soak.failures.is_empty())
}

fn again_file(file: &str) -> ExitCode {
    let read = std::fs::read_to_string(file).map_err(|error| format!("cannot be read: {error}"));
    let case: Case = match read.and_then(|read| text::read(&read)) {
        Ok(case) => case,
        Err(error) => return usage(&format!("{file}: {error}")),
    };
    let mut pair = Pair::default();
    let same = pair.agree(&Proved, &Second, &case);
    say!(
        "{file}: {}",
        if same { "no difference" } else { "DIFFERENCE" }
    );
    for line in pair.differences() {
        say!("    {line}");
    }
    status(same)
}

fn decoder() -> ExitCode {
    let done = AtomicU64::new(0);
    let progress = Progress::lines(SECOND);
    let verdicts = std::thread::scope(|scope| {
        let work = scope.spawn(|| {
            decoder::compare(
                sporhulma::family,
                second::family,
                |word, family| eights::round(&Proved, word, family),
                decoder::WORDS,
                &done,
            )
        });
        while !work.is_finished() {
            let percent = done.load(Relaxed) * 100 / decoder::WORDS;
            show(&progress, || format!("{percent} % of 2^32 words"));
            std::thread::sleep(Duration::from_millis(100));
        }
        work.join().expect("the comparison panicked")
    });
    progress.clear();
    for (family, (name, count)) in FAMILIES.iter().zip(verdicts.counts).enumerate() {
        say!("{family:>2} {name:<10} {count:>11}");
    }
    for (word, left, right) in &verdicts.first {
        say!("DIFFERENCE: {word:#010x}: proved {left}, second {right}");
    }
    for (_, wrong) in &verdicts.first_lost {
        say!("LOST: {wrong}");
    }
    say!(
        "differ: {} differences in {} words, {} of them lost in a read and a write, {:.1} s",
        verdicts.differences,
        decoder::WORDS,
        verdicts.lost,
        progress.seconds()
    );
    status(verdicts.differences == 0 && verdicts.lost == 0)
}
