//! Runs the tools of Debian's packages, binutils and others, and gives what they print; the files
//! between them lie in target/outside.

use std::path::PathBuf;
use std::process::Command;

/// The prefix of Debian's cross binutils.
const PREFIX: &str = "riscv64-linux-gnu-";

/// A file of the comparisons' own, in a folder that is made if it is not there.
pub fn file(name: &str) -> Result<PathBuf, String> {
    let folder = PathBuf::from("target/outside");
    std::fs::create_dir_all(&folder)
        .map_err(|error| format!("{}: cannot be made: {error}", folder.display()))?;
    Ok(folder.join(name))
}

pub fn write(path: &PathBuf, bytes: &[u8]) -> Result<(), String> {
    std::fs::write(path, bytes)
        .map_err(|error| format!("{}: cannot be written: {error}", path.display()))
}

pub fn read(path: &PathBuf) -> Result<Vec<u8>, String> {
    std::fs::read(path).map_err(|error| format!("{}: cannot be read: {error}", path.display()))
}

/// What a tool said.
pub struct Said {
    pub succeeded: bool,
    pub output: String,
    pub errors: String,
}

/// Runs `tool` of binutils (`as`, `ld` ..).
pub fn run(tool: &str, arguments: &[&str]) -> Result<Said, String> {
    run_named(&format!("{PREFIX}{tool}"), arguments)
}

fn run_named(name: &str, arguments: &[&str]) -> Result<Said, String> {
    let ran = Command::new(name).args(arguments).output();
    let ran =
        ran.map_err(|error| format!("{name}: cannot be run: {error}; tools/outside installs it"))?;
    Ok(Said {
        succeeded: ran.status.success(),
        output: String::from_utf8_lossy(&ran.stdout).into_owned(),
        errors: String::from_utf8_lossy(&ran.stderr).into_owned(),
    })
}

/// Runs `tool` of binutils, which must succeed, and gives its output.
pub fn output(tool: &str, arguments: &[&str]) -> Result<String, String> {
    output_of(&format!("{PREFIX}{tool}"), arguments)
}

/// The same of any tool, by its whole name.
pub fn output_of(name: &str, arguments: &[&str]) -> Result<String, String> {
    let said = run_named(name, arguments)?;
    let first = said.errors.lines().next().unwrap_or("no message");
    said.succeeded
        .then_some(said.output)
        .ok_or_else(|| format!("{name} {}: failed: {first}", arguments.join(" ")))
}

/// The version of `tool`, as it says it itself.
pub fn version(tool: &str) -> Result<String, String> {
    let said = output(tool, &["--version"])?;
    Ok(said.lines().next().unwrap_or("no version").to_string())
}
