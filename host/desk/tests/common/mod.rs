//! A folder of its own for each test, files in it, and the desk run there.

#![allow(dead_code)] // each test file uses its own part

pub mod calls;
pub mod elf;
pub mod json;

use json::{Reader, Value};
use std::fs;
use std::path::PathBuf;
use std::process::{Command, Output, Stdio};

// Words of small programs, as the GNU assembler gives them.
pub const NOP: u32 = 0x0000_0013;
pub const ECALL: u32 = 0x0000_0073;
pub const EBREAK: u32 = 0x0010_0073;
pub const SSPUSH_RA: u32 = 0xce10_4073;
pub const SSPOPCHK_RA: u32 = 0xcdc0_c073;
pub const LD_A0_A1: u32 = 0x0005_b503; // ld a0,0(a1)
pub const SD_A0_A1: u32 = 0x00a5_b023; // sd a0,0(a1)
pub const JR_A0: u32 = 0x0005_0067; // jr a0
pub const J_SELF: u32 = 0x0000_006f; // j .

/// Counts a0 down from its value to 0, then calls.
pub const COUNTDOWN: [u32; 3] = [
    0xfff5_0513, // addi a0,a0,-1
    0xfe05_1ee3, // bnez a0,.-4
    ECALL,
];

/// Pages of a small user program: code, data, shadow stack.
pub const MAP: &str = "\
# the program
0x30000 -> 0x80002000 shadow u
0x10000 -> 0x80000000 r-x u
0x20000 -> 0x80001000 rw u
";

/// The options that go with `MAP`.
pub const USER: &str = "--memory 16K --map user.map --mode U --pc 0x10000 --sv39";

pub struct Outcome {
    pub status: i32,
    pub out: String,
    pub err: String,
}

impl Outcome {
    pub fn of(output: Output) -> Outcome {
        Outcome {
            status: output.status.code().expect("the desk ended by itself"),
            out: String::from_utf8(output.stdout).unwrap(),
            err: String::from_utf8(output.stderr).unwrap(),
        }
    }
}

/// A folder that goes away with the test.
pub struct Desk {
    pub folder: PathBuf,
}

impl Desk {
    pub fn new(test: &str) -> Desk {
        let name = format!("desk-{}-{test}", std::process::id());
        let folder = std::env::temp_dir().join(name);
        fs::create_dir_all(&folder).unwrap();
        let desk = Desk { folder };
        desk.file("user.map", MAP);
        desk
    }

    pub fn file(&self, name: &str, content: impl AsRef<[u8]>) {
        fs::write(self.folder.join(name), content).unwrap();
    }

    pub fn image(&self, name: &str, words: &[u32]) {
        let bytes: Vec<u8> = words.iter().flat_map(|word| word.to_le_bytes()).collect();
        self.file(name, bytes);
    }

    pub fn command(&self, arguments: &[&str]) -> Command {
        let mut command = programs::started(env!("CARGO_BIN_EXE_desk"));
        command
            .args(arguments)
            .current_dir(&self.folder)
            .stdin(Stdio::null());
        command
    }

    /// Runs the desk with arguments that are separated by spaces.
    pub fn run(&self, arguments: &str) -> Outcome {
        let arguments: Vec<&str> = arguments.split_whitespace().collect();
        Outcome::of(self.command(&arguments).output().unwrap())
    }

    /// The same, with what its input holds.
    pub fn run_with(&self, arguments: &str, input: &str) -> Outcome {
        self.file("input.txt", input);
        let input = fs::File::open(self.folder.join("input.txt")).unwrap();
        let arguments: Vec<&str> = arguments.split_whitespace().collect();
        Outcome::of(self.command(&arguments).stdin(input).output().unwrap())
    }

    /// The object that arguments with `--json` print where all goes as asked.
    pub fn object(&self, arguments: &str) -> Value {
        let outcome = self.run(arguments);
        let ended = (outcome.status, outcome.err.as_str());
        assert_eq!(ended, (0, ""), "{arguments}");
        Reader::whole(&outcome.out)
    }
}

impl Drop for Desk {
    fn drop(&mut self) {
        let _ = fs::remove_dir_all(&self.folder);
    }
}

/// Runs each command line, and holds its whole output against the line that must be on stderr.
pub fn refused(test: &str, prepare: impl Fn(&Desk), cases: &[(&str, &str)]) {
    let desk = Desk::new(test);
    desk.image("ok.bin", &[ECALL]);
    prepare(&desk);
    for (arguments, line) in cases {
        let outcome = desk.run(arguments);
        assert_eq!(outcome.err, format!("desk: {line}\n"), "desk {arguments}");
        assert_eq!(outcome.out, "", "desk {arguments}");
        assert_eq!(outcome.status, 2, "desk {arguments}");
    }
}
