//! How the tests start a program that was built here, and which C compiler builds one. Where programs for x86-64 run under an emulator,
//! `tools/host` says so in two variables. Without them it is plain: the program itself, and `cc`.

use std::env;
use std::ffi::{OsStr, OsString};
use std::process::Command;

const RUNNER: &str = "SPORHULMA_RUNNER";
const COMPILER: &str = "SPORHULMA_CC";

/// A command that starts this program; its arguments are still to be added.
pub fn started(program: impl AsRef<OsStr>) -> Command {
    behind(said(RUNNER), program.as_ref())
}

/// A command of the C compiler whose programs `started` starts.
pub fn c_compiler() -> Command {
    Command::new(said(COMPILER).unwrap_or_else(|| "cc".into()))
}

fn said(variable: &str) -> Option<OsString> {
    env::var_os(variable).filter(|value| !value.is_empty())
}

fn behind(runner: Option<OsString>, program: &OsStr) -> Command {
    let Some(runner) = runner else {
        return Command::new(program);
    };
    let mut command = Command::new(runner);
    command.arg(program);
    command
}

#[cfg(test)]
mod tests {
    use super::*;

    #[test]
    fn a_runner_comes_first_and_then_the_program() {
        let mut command = behind(Some("echo".into()), OsStr::new("program"));
        let ran = command.arg("argument").output().expect("echo starts");
        assert_eq!(ran.stdout, b"program argument\n");
    }

    #[test]
    fn without_a_runner_it_is_the_program_alone() {
        let ran = behind(None, OsStr::new("echo")).arg("argument").output();
        assert_eq!(ran.expect("echo starts").stdout, b"argument\n");
    }
}
