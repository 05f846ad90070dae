//! The demo's two images: their sources, assembled again by GNU as, must give the committed bytes.

use crate::report::Report;
use std::process::Command;

/// The script that builds the images; with `--check` it writes nothing and says whether the
/// committed files are what it would build.
const BUILD: &str = "examples/torque/build";

pub fn compare() -> Result<u64, String> {
    let mut report = Report::new("image");
    let ran = Command::new(BUILD).arg("--check").output();
    let ran = ran.map_err(|error| {
        format!("{BUILD}: cannot be run: {error}; run tools/outside from a whole clone")
    })?;
    if !ran.status.success() {
        report.difference(String::from_utf8_lossy(&ran.stderr).trim());
    }
    Ok(report.finish("examples/torque, assembled again"))
}
