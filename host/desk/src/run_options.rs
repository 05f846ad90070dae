//! The options of `desk run` and of its start, with what the help says about each. `desk frames` takes some of them as they are.

use crate::failure::Failure;
use crate::layout::Wish;
use crate::load::Format;
use crate::number::{number, size};
use crate::refusal;
use crate::window;
use clap::builder::{NonEmptyStringValueParser, PossibleValuesParser, TypedValueParser};
use clap::{Args, ValueEnum};

pub const MEMORY: &str =
    "bytes of memory, a multiple of 4096: 65536, 0x10000, 64K (default and most: 1M)";
pub const MAP: &str =
    "the page map, lines as 0x10000..0x14000 -> 0x80001000 r-x u (see docs/DESK.md)";
const AUTO_MAP: &str = "the page map, lines as 0x10000..0x14000 -> 0x80001000 r-x u (see docs/DESK.md); auto: one for the segments of an ELF file, with a stack and a shadow stack";
pub const SHADOW_STACK: &str = "shadow stack on in S and U: sets SSE in menvcfg and senvcfg";
pub const JSON: &str = "say all of this as one JSON object (see docs/DESK.md)";

/// The options of `desk run`, in the help's order.
#[derive(Args)]
#[rustfmt::skip]
pub struct RunOptions {
    #[arg(value_name = "IMAGE", hide = true, value_parser = some_text())]
    pub image: String,
    #[arg(long, value_name = "SIZE", default_value = "1M", hide_default_value = true, value_parser = memory, help = MEMORY)]
    pub memory: u64,
    #[arg(long, value_name = "raw|hex|elf", hide_possible_values = true, ignore_case = true, help = "what the image is (default: told by its content)")]
    pub format: Option<Format>,
    #[arg(long, value_name = "FILE.elf", value_parser = some_text(), help = "an ELF file whose symbols and lines name addresses, beside a raw image or Intel HEX")]
    pub symbols: Option<String>,
    #[arg(long, value_name = "FILE|auto", value_parser = some_text(), help = AUTO_MAP)]
    pub map: Option<String>,
    #[arg(long, value_name = "SIZE", value_parser = stack, help = "bytes of the stack that --map auto lays out, a multiple of 4096 (default 16K)")]
    pub stack: Option<u64>,
    #[arg(long, value_name = "SIZE", value_parser = stack, help = "bytes of the shadow stack that --map auto lays out, a multiple of 4096 (default 4K)")]
    pub shadow: Option<u64>,
    #[arg(long, conflicts_with = "mode", help = "run an ELF file in U under Sv39 with its shadow stack: --map auto, with mode, pc, sp and ssp set to it, and landing pads on if the program has any")]
    pub user: bool,
    #[command(flatten)]
    pub start: StartOptions,
    #[arg(long, value_name = "WORD|TEXT", value_parser = some_text(), help = "a word that the first step takes and does not fetch: 0xfff50513, or an instruction as desk asm takes it, 'addi a0,a0,-1'")]
    pub word: Option<String>,
    #[arg(long, value_name = "N", allow_negative_numbers = true, value_parser = number, help = "the most steps, any number (default: on to the program's end; Ctrl-C ends it with a report)")]
    pub steps: Option<u64>,
    #[arg(long, value_name = "N|all", default_value = "0", hide_default_value = true, value_parser = follow, help = "go on after the first N traps, or after all (default 0: stop at the first trap)")]
    pub follow: u64,
    #[arg(long, value_name = "END", value_parser = expect, help = "exit status 0 exactly if it ends so: ecall, ebreak or a trap's cause, exit or exit=VALUE")]
    pub expect: Option<Expect>,
    #[arg(long, help = "serve the program's semihosting calls: console and exit (see docs/DESK.md)")]
    pub semihosting: bool,
    #[arg(long, help = "serve its ECALLs as system calls, by newlib's numbers: exit, write, read, brk, fstat, close (see docs/DESK.md)")]
    pub syscalls: bool,
    #[arg(long, conflicts_with = "expect", help = "end with the program's exit value as status, and write the report to stderr")]
    pub exit_status: bool,
    #[arg(long, help = "exit status 3 if there is a note: something that is on had no effect")]
    pub strict: bool,
    #[arg(long, help = "write each step: address, word, text, what changed")]
    pub trace: bool,
    #[arg(long, value_name = "WHERE|STEP", value_parser = some_text(), help = "begin the trace at the first step at a symbol (main, main+8) or at an address of the program (v:0x10164), or with the step of this number")]
    pub trace_from: Option<String>,
    #[arg(long, value_name = "N", value_parser = window::steps, help = "end the trace after N steps; the run goes on")]
    pub trace_steps: Option<u64>,
    #[arg(long, value_name = "N", conflicts_with_all = ["trace_from", "trace_steps"], value_parser = window::last, help = "trace the last N steps of the run, at most 100000")]
    pub trace_last: Option<u64>,
    #[arg(long, value_name = "FILE", value_parser = some_text(), help = "write the trace there and not to the output")]
    pub trace_to: Option<String>,
    #[arg(long, help = "say in which functions the steps were made")]
    pub profile: bool,
    #[arg(long, value_name = "FILE", value_parser = some_text(), help = "draw the profile there, as a flame graph (SVG)")]
    pub profile_svg: Option<String>,
    #[arg(long, help = "show all registers and CSRs at the end")]
    pub registers: bool,
    #[arg(long, value_name = "WHERE:LENGTH", value_parser = some_text(), help = "show bytes of memory at the end; WHERE is a physical address (0x80001000), one of the program (v:0x20000) or a symbol (table, table+8); any number of times")]
    pub dump: Vec<String>,
    #[arg(long, value_name = "FILE", value_parser = some_text(), help = "write all of memory there at the end")]
    pub save: Option<String>,
    #[arg(long, help = "say which frames of memory a user program can name by the map (as desk frames does)")]
    pub frames: bool,
    #[arg(long, help = JSON)]
    pub json: bool,
}

/// Where the page map comes from.
pub enum MapWish<'a> {
    None,
    File(&'a str),
    /// Laid out, since this option asks for it.
    Auto(&'static str),
}

/// Bytes of the stacks where nothing else is said.
const STACK: u64 = 16 << 10;
const SHADOW: u64 = 4 << 10;

impl RunOptions {
    pub fn map_wish(&self) -> MapWish<'_> {
        match self.map.as_deref() {
            Some("auto") => MapWish::Auto("--map auto"),
            Some(file) => MapWish::File(file),
            None if self.user => MapWish::Auto("--user"),
            None => MapWish::None,
        }
    }

    pub fn map_file(&self) -> Option<&str> {
        match self.map_wish() {
            MapWish::File(file) => Some(file),
            _ => None,
        }
    }

    /// What `--map auto` is to lay out. Pages are for U unless the hart starts in S.
    pub fn wish(&self) -> Wish {
        Wish {
            memory: self.memory,
            stack: self.stack.unwrap_or(STACK),
            shadow: self.shadow.unwrap_or(SHADOW),
            user: !matches!(self.start.mode, Some(Mode::S)),
        }
    }

    /// The option by which a trace is asked for, if one is.
    pub fn traces(&self) -> Option<&'static str> {
        let asked = [
            (self.trace, "--trace"),
            (self.trace_from.is_some(), "--trace-from"),
            (self.trace_steps.is_some(), "--trace-steps"),
            (self.trace_last.is_some(), "--trace-last"),
            (self.trace_to.is_some(), "--trace-to"),
        ];
        asked.iter().find(|asked| asked.0).map(|asked| asked.1)
    }

    /// Whether the options go together.
    pub fn agree(&self) -> Result<(), Failure> {
        let map = self.map_wish();
        let auto = matches!(map, MapWish::Auto(_));
        for (given, option) in [(self.stack, "--stack"), (self.shadow, "--shadow")] {
            if given.is_some() && !auto {
                let wrong = "it is for the map of --map auto or --user; leave it out";
                return Err(Failure::at(option, wrong));
            }
        }
        if self.user && !auto {
            let wrong = "it lays out its own map; leave out --map, or with yours give --mode U --sv39 --shadow-stack, --ssp and --x sp";
            return Err(Failure::at("--user", wrong));
        }
        if self.frames && matches!(map, MapWish::None) {
            let wrong = "it tells what the map's entries name, and no map is given; add --map FILE";
            return Err(Failure::at("--frames", wrong));
        }
        if let (Some(option), true, None) = (self.traces(), self.json, &self.trace_to) {
            let wrong = "with --json the trace needs a place of its own; add --trace-to FILE";
            return Err(Failure::at(option, wrong));
        }
        Ok(())
    }
}

/// How the hart is set at the start.
#[derive(Args, Default)]
#[rustfmt::skip]
pub struct StartOptions {
    #[arg(long, value_name = "M|S|U", hide_possible_values = true, ignore_case = true, help = "the mode at the start (default M)")]
    pub mode: Option<Mode>,
    #[arg(long, value_name = "ADDRESS|start", value_parser = pc, help = "the program counter at the start (default: the entry point of an ELF file, else 0x80000000); start: the start address that an Intel HEX file gives")]
    pub pc: Option<Pc>,
    #[arg(long, value_name = "ADDRESS", value_parser = number, help = "the shadow stack pointer at the start (default 0)")]
    pub ssp: Option<u64>,
    #[arg(long, value_name = "0|1", hide_possible_values = true, value_parser = one_of(&[("0", 0), ("1", 1)]), help = "whether a landing pad is expected at the start (default 0)")]
    pub elp: Option<u64>,
    #[arg(long, value_name = "REGISTER=VALUE", value_parser = some_text(), help = "a register by its name or as x10; VALUE may be negative; any number of times")]
    pub x: Vec<String>,
    #[arg(long, value_name = "NAME=VALUE", value_parser = some_text(), help = "a CSR's whole word; in mstatus, UXL and SXL may be left 0; any number of times")]
    pub csr: Vec<String>,
    #[arg(long, help = "translate by the map in S and U: sets satp.MODE to 8")]
    pub sv39: bool,
    #[arg(long, help = SHADOW_STACK)]
    pub shadow_stack: bool,
    #[arg(long, help = "landing pads on in all modes: sets LPE in menvcfg and senvcfg, MLPE in mseccfg")]
    pub landing_pads: bool,
    /// As the PMM that stands for so many bits.
    #[arg(long, value_name = "0|7|16", hide_possible_values = true, value_parser = one_of(&[("0", 0), ("7", 2), ("16", 3)]), help = "masked bits in all modes: sets PMM in senvcfg, menvcfg and mseccfg")]
    pub masking: Option<u64>,
}

/// A mode by its letter, as its number.
#[derive(Clone, Copy, ValueEnum)]
#[value(rename_all = "UPPER")]
pub enum Mode {
    M = 3,
    S = 1,
    U = 0,
}

/// Where the hart starts.
#[derive(Clone, Copy)]
pub enum Pc {
    /// Where the image says.
    Start,
    At(u64),
}

/// The end that the user waits for.
#[derive(Clone)]
pub struct Expect {
    pub text: String,
    pub wanted: Wanted,
}

#[derive(Clone)]
pub enum Wanted {
    /// A trap with one of these causes.
    Causes(Vec<u64>),
    /// An exit, with this value or with any.
    Exit(Option<i32>),
}

/// What may be any text but an empty one.
pub fn some_text() -> NonEmptyStringValueParser {
    NonEmptyStringValueParser::new()
}

/// A value that must be one of a few, as the number that it stands for.
fn one_of(choices: &'static [(&'static str, u64)]) -> impl TypedValueParser<Value = u64> {
    let names = choices.iter().map(|choice| choice.0);
    PossibleValuesParser::new(names).map(|name| {
        let chosen = choices.iter().find(|choice| choice.0 == name);
        chosen.map_or(0, |choice| choice.1)
    })
}

/// How many bytes memory has.
pub fn memory(text: &str) -> Result<u64, String> {
    let length = size(text)?;
    match refusal::memory(length) {
        Some(wrong) => Err(wrong),
        None => Ok(length),
    }
}

/// How many bytes a stack has.
fn stack(text: &str) -> Result<u64, String> {
    match size(text)? {
        0 => Err("0 bytes are no stack; try 4096 or more, for instance 16K".into()),
        length => match refusal::memory(length) {
            Some(wrong) => Err(wrong),
            None => Ok(length),
        },
    }
}

fn pc(text: &str) -> Result<Pc, String> {
    match text {
        "start" => Ok(Pc::Start),
        _ => number(text).map(Pc::At),
    }
}

fn follow(text: &str) -> Result<u64, String> {
    match text {
        "all" => Ok(u64::MAX),
        _ => number(text).map_err(|_| format!("'{text}' is neither a number of traps nor 'all'")),
    }
}

fn expect(text: &str) -> Result<Expect, String> {
    let wrong =
        || format!("'{text}' is no end; write ecall, ebreak, a cause below 64, exit or exit=0");
    let exit = |value: &str| value.parse().map(|value| Wanted::Exit(Some(value)));
    let wanted = match (text, number(text), text.strip_prefix("exit=")) {
        ("ecall", ..) => Wanted::Causes(vec![8, 9, 11]),
        ("ebreak", ..) => Wanted::Causes(vec![3]),
        ("exit", ..) => Wanted::Exit(None),
        (_, Ok(cause), _) if cause < 64 => Wanted::Causes(vec![cause]),
        (_, _, Some(value)) => exit(value).map_err(|_| wrong())?,
        _ => return Err(wrong()),
    };
    Ok(Expect {
        text: text.into(),
        wanted,
    })
}
