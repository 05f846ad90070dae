//! `desk frames`: which frames of memory a user program can name by a page map, and which are out of its reach
//! (rules 13.10 to 13.15; docs/ISOLATION.md has the theorem). `desk run --frames` tells the same of its own start.

mod json;
mod scope;
mod table;
mod text;

pub use scope::Scope;
pub use table::Table;

use crate::failure::Failure;
use crate::run_options::{memory, some_text, StartOptions, JSON, MAP, MEMORY, SHADOW_STACK};
use crate::{facts, setup, start};
use clap::Args;
use sporhulma::Hart;
use std::io::Write;

/// The options of `desk frames`: those of `desk run` that decide what a map names.
#[derive(Args)]
#[rustfmt::skip]
pub struct FramesOptions {
    #[arg(long, value_name = "FILE", value_parser = some_text(), help = MAP)]
    map: String,
    #[arg(long, value_name = "SIZE", default_value = "1M", hide_default_value = true, value_parser = memory, help = MEMORY)]
    memory: u64,
    #[arg(long, help = SHADOW_STACK)]
    shadow_stack: bool,
    #[arg(long, help = JSON)]
    json: bool,
}

/// Prints the table of a map; there is no run, so what it tells is of a hart that is in U under Sv39.
pub fn run(options: &FramesOptions, out: &mut dyn Write) -> Result<u8, Failure> {
    let start = StartOptions {
        shadow_stack: options.shadow_stack,
        ..StartOptions::default()
    };
    let hart = start::hart(Hart::fresh(), &start)?;
    let table = Table::new(&hart, options.memory, &setup::map(&options.map)?);
    let said = match options.json {
        true => facts::text(&table.json()),
        false => table.text(&Scope::default()),
    };
    out.write_all(said.as_bytes())?;
    Ok(0)
}
