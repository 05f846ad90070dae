//! The command line: the desk's commands with their options, and the help that clap makes of them.

use crate::assemble::AsmOptions;
use crate::demonstrate::DemoOptions;
use crate::frames::FramesOptions;
use crate::help::*;
use crate::intel_hex::write::HexOptions;
use crate::run_options::RunOptions;
use crate::words::DisasmOptions;
use clap::{Parser, Subcommand};

#[derive(Parser)]
#[command(name = "desk", about = OVERVIEW, after_help = STATUSES, term_width = 100)]
#[command(override_usage = "desk COMMAND ...")]
pub struct Desk {
    #[command(subcommand)]
    pub command: Command,
}

// Made once: which of them is the largest does not matter.
#[allow(clippy::large_enum_variant)]
#[derive(Subcommand)]
#[rustfmt::skip]
pub enum Command {
    #[command(about = RUN_ABOUT, after_help = RUN, override_usage = RUN_USAGE)]
    Run(RunOptions),
    #[command(about = FRAMES_ABOUT, after_help = FRAMES, override_usage = FRAMES_USAGE)]
    Frames(FramesOptions),
    #[command(about = DEMO_ABOUT, after_help = DEMO, override_usage = DEMO_USAGE)]
    Demo(DemoOptions),
    #[command(about = DISASM_ABOUT, after_help = DISASM, override_usage = DISASM_USAGE)]
    Disasm(DisasmOptions),
    #[command(about = ASM_ABOUT, after_help = ASM, override_usage = ASM_USAGE)]
    Asm(AsmOptions),
    #[command(about = HEX_ABOUT, after_help = HEX, override_usage = HEX_USAGE)]
    Hex(HexOptions),
}
