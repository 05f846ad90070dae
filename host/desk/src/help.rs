//! The words of the help: what clap puts around the options of each command (run_options.rs and the commands' own files).

/// How each command is written.
const USAGES: [(&str, &str); 7] = [
    ("run", RUN_USAGE),
    ("frames", FRAMES_USAGE),
    ("demo", DEMO_USAGE),
    ("disasm", DISASM_USAGE),
    ("asm", ASM_USAGE),
    ("hex", HEX_USAGE),
    ("help", "desk help [COMMAND]"),
];

pub const RUN_USAGE: &str = "desk run IMAGE [options]";
pub const FRAMES_USAGE: &str = "desk frames --map FILE [options]";
pub const DEMO_USAGE: &str = "desk demo [--svg FILE]";
pub const DISASM_USAGE: &str = "desk disasm WORD... or desk disasm --image FILE [options]";
pub const ASM_USAGE: &str = "desk asm TEXT... or desk asm --file FILE [options]";
pub const HEX_USAGE: &str = "desk hex IMAGE [options]";

/// How a command is written.
pub fn usage(command: &str) -> &'static str {
    let named = USAGES.iter().find(|usage| usage.0 == command);
    named.map_or("desk help", |usage| usage.1)
}

pub fn is_command(name: &str) -> bool {
    USAGES.iter().any(|usage| usage.0 == name)
}

/// The commands' names in a sentence.
pub fn commands(joined: &str) -> String {
    let names: Vec<&str> = USAGES.iter().map(|usage| usage.0).collect();
    let (last, others) = names.split_last().unwrap_or((&"help", &[]));
    format!("{} {joined} {last}", others.join(", "))
}

pub const OVERVIEW: &str =
    "Sporhulma's desk: run RV64 programs on a proved hart with shadow stack, landing pads and masking.";

/// A line about each command.
pub const RUN_ABOUT: &str =
    "run an ELF file, Intel HEX or a raw image on the proved hart: where it stopped, and why";
pub const FRAMES_ABOUT: &str =
    "say which frames of memory a user program can name by a page map, and which not";
pub const DEMO_ABOUT: &str =
    "the incident: one program with the shadow stack off and on, and torque.svg";
pub const DISASM_ABOUT: &str = "the text of instruction words";
pub const ASM_ABOUT: &str = "the words of instructions, by the proved writer";
pub const HEX_ABOUT: &str = "write a raw image as Intel HEX";

/// What stands below the options.
pub const STATUSES: &str = "\
Exit status: 0 all went as asked, 1 the desk itself failed (for instance a full disk),
  2 the input is wrong (one line on stderr says where and what would be right), 3 a run ended by a
  trap or otherwise than asked; with --exit-status the program's own. docs/DESK.md has all of it.";

pub const RUN: &str = "\
What the image is is told by its content. An ELF file for RV64 is placed by its segments' physical
addresses, an Intel HEX file where its records say, and a raw image at the start of memory, physical
0x80000000. The hart starts in M with all registers and CSRs 0, at an ELF file's entry point or else
at pc 0x80000000, and runs on to a trap, the program's exit, the last of --steps or Ctrl-C. Addresses
are told by name and line of source where an ELF file has them.

A C program in M with its console (docs/C.md is the quick start):
  desk run program.elf --semihosting

One in user mode under Sv39 with its shadow stack, and its exit value as the status:
  desk run program.elf --user --syscalls --exit-status
With the steps before its trap, the bytes of a variable, and where its steps were made:
  desk run program.elf --user --syscalls --trace-last 20 --dump table:64 --profile

Numbers are written as 4096, 0x1000, 0b1000 or 1_000_000. The switches act on top of --csr.
The same with a map of your own, traced:
  desk run program.bin --map program.map --mode U --pc 0x10000 --sv39 --shadow-stack \\
      --ssp 0x31000 --x sp=0x22000 --trace --expect ecall
program.map:
  0x10000 -> 0x80000000 r-x u       # code
  0x20000..0x22000 -> 0x80001000 rw u   # data and stack, two pages
  0x30000 -> 0x80003000 shadow u    # shadow stack (W alone): ssp starts at its end
Flags are the leaf's r w x u g; v a d are set unless !v !a !d is there. A line of the form
0x40000 -> leaf 0x200010d7 gives the leaf's whole word.";

pub const FRAMES: &str = "\
Says which frames of memory a user program under Sv39 can name by this page map, through which
pages and how, and which it cannot. A frame is named by every entry that is valid (rule 5 of \"From
address to byte\") and has its U bit. Up to and including its first trap, a user program neither
depends on the bytes of frames that are not named nor changes them: docs/ISOLATION.md has the
theorem.

What an entry names and a program still cannot do is told as 'not as it stands', with what lacks:
A (no access), D (no store, push or swap), mstatus.MXR (no load by X alone), senvcfg.SSE (no shadow
access). W alone is a shadow page with --shadow-stack, and not valid without it.
  desk frames --map program.map --memory 64K --shadow-stack
desk run takes --frames and adds the same to its report, by the hart at the start of the run.";

pub const DEMO: &str = "\
Runs the torque controller of examples/torque with the shadow stack off and on, and mended with it
on, says what happened and draws the curves.";

pub const DISASM: &str = "\
Prints a line a word: address, word, text as GNU objdump writes it.
A WORD is 0x00a00513 or 00a00513.";

pub const ASM: &str = "\
Prints a word a line, as desk disasm takes it. A TEXT is one instruction as GNU as takes it and as
desk disasm prints it, with aliases as li, mv, ret, beqz and csrr; # begins a comment:
  desk asm 'addi a0,a0,-1' 'bnez a0,0x80000000'
A target is an address, or a distance as .+8; there are no labels. .word N is the word N. The proved
writer decides what has a word; what has none is refused, with column and what would be right.";

pub const HEX: &str = "\
Writes a raw image as Intel HEX, which desk run and other tools load back to the same bytes: data
records (type 00), upper addresses (04), the start address if one is given (05), the end (01).";
