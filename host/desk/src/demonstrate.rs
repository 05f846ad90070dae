//! `desk demo`: the incident of the README, run by crate `demo`.

use crate::failure::Failure;
use crate::run_options::some_text;
use clap::Args;
use std::io::Write;
use std::path::Path;

/// The options of `desk demo`.
#[derive(Args)]
#[rustfmt::skip]
pub struct DemoOptions {
    #[arg(long, value_name = "FILE", default_value = "torque.svg", hide_default_value = true, value_parser = some_text(), help = "where the picture is written (default torque.svg in the current folder)")]
    svg: String,
}

pub fn run(options: &DemoOptions, out: &mut dyn Write) -> Result<u8, Failure> {
    let svg = Path::new(&options.svg);
    // Gathered first: a reader that closes the pipe must not keep the picture from being written.
    let mut said = Vec::new();
    let ended = demo::run(&mut said, svg);
    out.write_all(&said)?;
    ended.map(|()| 0).map_err(|failure| match failure {
        demo::Failure::Place(wrong) => Failure::at("demo", wrong),
        demo::Failure::Own(wrong) => Failure::Tool(format!("demo: {wrong}")),
    })
}
