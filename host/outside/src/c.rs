//! C programs, built from Debian's compilers and libraries and run by the desk and by QEMU: the same text and the same exit value.
//! In M by semihosting (qemu-system-riscv64), in user mode by system calls (qemu-riscv64). They are those of examples/c, and two that go
//! through the calls one by one (host/outside/c).
//!
//! QEMU 7.2 knows no shadow stack. There it runs what was built without (NAME.plain.elf), and the desk runs the same file, and those with
//! the shadow stack's instructions by `shadow.py` (NAME.user.elf) and by clang (NAME.clang.elf).

use crate::gnu;
use crate::qemu;
use crate::report::Report;
use std::fs::File;
use std::io::Write;
use std::path::{Path, PathBuf};
use std::process::{Command, Stdio};

const EXAMPLES: &str = "examples/c";
const DESK: &str = "./desk";
/// QEMU for a program in M. It has no end of its own if a program never exits.
const SYSTEM: [&str; 16] = [
    "60",
    "qemu-system-riscv64",
    "-machine",
    "virt",
    "-m",
    "16M",
    "-bios",
    "none",
    "-display",
    "none",
    "-serial",
    "none",
    "-monitor",
    "none",
    "-semihosting-config",
    "enable=on,target=native",
];

/// The programs that say something by themselves, and one that reads.
const SILENT: [&str; 2] = ["hello", "controller"];
const SMASHED: &str = "smash";
const READER: &str = "words";
/// Those that go through the calls, from a folder of their own, and what they read.
const CALLS: [&str; 2] = ["semihosting", "calls"];
const FOLDER: &str = "VPATH=../../host/outside/c";
const INPUT: &str = "abcdef";

/// What became of a program: what it wrote, and its exit value.
#[derive(PartialEq, Debug)]
struct Ended {
    text: String,
    status: Option<i32>,
}

pub fn compare() -> Result<u64, String> {
    let mut report = Report::new("c");
    let folder = build()?;
    for name in SILENT {
        machine(&mut report, &folder, name, "")?;
        user(&mut report, &folder, name, "", &["plain", "user", "clang"])?;
    }
    machine(&mut report, &folder, SMASHED, "")?;
    user(&mut report, &folder, SMASHED, "", &["plain"])?;
    for kind in ["user", "clang"] {
        caught(&mut report, &folder, kind)?;
    }
    let long = "so many words and lines\n".repeat(400);
    for input in ["", "one", "two words\nand more\n", &long] {
        user(
            &mut report,
            &folder,
            READER,
            input,
            &["plain", "user", "clang"],
        )?;
    }
    let [semihosting, calls] = CALLS;
    machine(&mut report, &folder, semihosting, INPUT)?;
    user(
        &mut report,
        &folder,
        calls,
        INPUT,
        &["plain", "user", "clang"],
    )?;
    let gcc = first_line("riscv64-unknown-elf-gcc")?;
    let clang = first_line("clang-19")?;
    Ok(report.finish(format!("{gcc}, {clang}, {}", qemu::version()?)))
}

/// Builds all of them, and gives the folder in which they then are.
fn build() -> Result<PathBuf, String> {
    let folder = gnu::file("c")?;
    let whole = std::path::absolute(&folder);
    let whole = whole.map_err(|error| format!("{}: cannot be found: {error}", folder.display()))?;
    let out = format!("OUT={}", whole.display());
    let [semihosting, calls] = CALLS;
    let made = |name: &str, kind: &str| format!("{}/{name}{kind}.elf", whole.display());
    let own = [
        made(semihosting, ""),
        made(calls, ".plain"),
        made(calls, ".user"),
        made(calls, ".clang"),
    ];
    let mut words = vec!["-s", "-C", EXAMPLES, &out, FOLDER, "all", "plain", "clang"];
    words.extend(own.iter().map(String::as_str));
    gnu::output_of("make", &words)?;
    Ok(folder)
}

fn first_line(tool: &str) -> Result<String, String> {
    let said = gnu::output_of(tool, &["--version"])?;
    Ok(said.lines().next().unwrap_or("no version").to_string())
}

/// Runs a command with this input.
fn ended(command: &mut Command, input: &str) -> Result<Ended, String> {
    let path = gnu::file("input.txt")?;
    let cannot = |error| format!("{command:?}: cannot be run: {error}");
    File::create(&path)
        .and_then(|mut file| file.write_all(input.as_bytes()))
        .map_err(|error| format!("{}: cannot be written: {error}", path.display()))?;
    let input = File::open(&path).map_err(cannot)?;
    let ran = command.stdin(Stdio::from(input)).output();
    let ran = ran.map_err(|error| format!("{command:?}: cannot be run: {error}"))?;
    Ok(Ended {
        text: String::from_utf8_lossy(&ran.stdout).into_owned(),
        status: ran.status.code(),
    })
}

fn desk(program: &Path, options: &[&str]) -> Command {
    let mut command = Command::new(DESK);
    command.arg("run").arg(program).args(options);
    command
}

/// A program in M, by semihosting.
fn machine(report: &mut Report, folder: &Path, name: &str, input: &str) -> Result<(), String> {
    let program = folder.join(format!("{name}.elf"));
    // QEMU's console is stderr for some calls and stdout for others.
    let mut qemu = Command::new("sh");
    qemu.args(["-c", "exec timeout \"$@\" 2>&1", "sh"]);
    qemu.args(SYSTEM).arg("-kernel").arg(&program);
    let theirs = ended(&mut qemu, input)?;
    let options = ["--semihosting", "--exit-status"];
    let ours = ended(&mut desk(&program, &options), input)?;
    check(report, &format!("{name} in M"), &ours, &theirs);
    Ok(())
}

/// A program in user mode, by system calls, as each of these kinds.
fn user(
    report: &mut Report,
    folder: &Path,
    name: &str,
    input: &str,
    kinds: &[&str],
) -> Result<(), String> {
    let plain = folder.join(format!("{name}.plain.elf"));
    let theirs = ended(Command::new("qemu-riscv64").arg(plain), input)?;
    for kind in kinds {
        let program = folder.join(format!("{name}.{kind}.elf"));
        let options = ["--user", "--syscalls", "--exit-status"];
        let ours = ended(&mut desk(&program, &options), input)?;
        check(
            report,
            &format!(
                "{name} in user mode ({kind}), {} bytes of input",
                input.len()
            ),
            &ours,
            &theirs,
        );
    }
    Ok(())
}

/// The stack that is run over, where there is a shadow stack: the pop-check traps.
fn caught(report: &mut Report, folder: &Path, kind: &str) -> Result<(), String> {
    let program = folder.join(format!("{SMASHED}.{kind}.elf"));
    let ours = ended(
        &mut desk(&program, &["--user", "--syscalls", "--expect", "18"]),
        "",
    )?;
    let told = ours.text.contains("shadow stack mismatch") && ours.text.contains("<unlock+0x0>");
    match (ours.status, told) {
        (Some(0), true) => report.count(format!("caught by the shadow stack ({kind})")),
        _ => report.difference(format!("{SMASHED} ({kind}) was not caught: {ours:?}")),
    }
    Ok(())
}

fn check(report: &mut Report, what: &str, ours: &Ended, theirs: &Ended) {
    match ours == theirs && !theirs.text.is_empty() {
        true => report.count("runs with QEMU's text and exit value"),
        false => report.difference(format!("{what}: the desk gave {ours:?}, QEMU {theirs:?}")),
    }
}

#[cfg(test)]
mod tests {
    use super::*;

    /// What the comparison is to find: another text, another value, and two that say nothing.
    #[test]
    fn a_difference_is_found() {
        let ended = |text: &str, status| Ended {
            text: text.into(),
            status: Some(status),
        };
        let mut report = Report::new("c");
        check(&mut report, "same", &ended("a", 1), &ended("a", 1));
        assert_eq!(report.differences(), 0);
        check(&mut report, "text", &ended("a", 1), &ended("b", 1));
        check(&mut report, "value", &ended("a", 1), &ended("a", 0));
        check(&mut report, "nothing", &ended("", 0), &ended("", 0));
        assert_eq!(report.differences(), 3);
    }
}
