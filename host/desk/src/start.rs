//! The hart at the start of a run: registers, CSRs, and the switches that set bits of CSRs.

use crate::failure::Failure;
use crate::layout::Layout;
use crate::load::{Format, Image};
use crate::names::{csr_index, register_number, SP, U};
use crate::number::{number, register_value};
use crate::run_options::{Pc, StartOptions};
use formats::csr::field::{LPE, MLPE, PMM, PMM_SHIFT, SSE, SV39};
use sporhulma::{word, Hart, MSTATUS_CLEAR};

/// Where the hart starts, if the options say it: at an address, or where the image says.
pub fn pc(options: &StartOptions, image: &Image) -> Result<Option<u64>, Failure> {
    match options.pc {
        None if image.format == Format::Elf => Ok(image.start),
        None => Ok(None),
        Some(Pc::At(address)) => Ok(Some(address)),
        Some(Pc::Start) => {
            let start = image.start_address();
            start.map(Some).map_err(|wrong| Failure::at("--pc", wrong))
        }
    }
}

/// A hart as a user program with its shadow stack needs it, but for its pc: in U under Sv39, with its stack pointers. Pads are on where
/// the program has any.
pub fn user(layout: &Layout) -> Hart {
    let mut hart = Hart::fresh();
    let pads = if layout.pads > 0 { LPE } else { 0 };
    hart.rest[word::MODE] = U;
    hart.rest[word::SATP] = SV39;
    hart.rest[word::MENVCFG] = SSE | pads;
    hart.rest[word::SENVCFG] = SSE | pads;
    hart.rest[word::SSP] = layout.ssp;
    hart.x[SP] = layout.sp;
    hart
}

/// What the options make of a hart, but for `--pc`.
pub fn hart(mut hart: Hart, options: &StartOptions) -> Result<Hart, Failure> {
    let mut set = Vec::new();
    for pair in &options.x {
        let (name, value) = assignment("--x", pair, "a0=5")?;
        let n = register_number(name).map_err(|wrong| Failure::at("--x", wrong))?;
        hart.x[n] = once("--x", name, &mut set, n, register_value(value))?;
    }
    set.clear();
    for pair in &options.csr {
        let (name, value) = assignment("--csr", pair, "mtvec=0x80000100")?;
        let index = csr_index(name).map_err(|wrong| Failure::at("--csr", wrong))?;
        hart.rest[index] = once("--csr", name, &mut set, index, number(value))?;
    }
    if hart.rest[word::MSTATUS] >> 32 & 15 == 0 {
        hart.rest[word::MSTATUS] |= MSTATUS_CLEAR;
    }
    if options.ssp.is_some() && set.contains(&word::SSP) {
        return Err(Failure::at(
            "--ssp",
            "ssp is given twice, also by --csr ssp; give it once",
        ));
    }
    let mode = options.mode.map(|mode| mode as u64);
    for (value, index) in [
        (options.ssp, word::SSP),
        (mode, word::MODE),
        (options.elp, word::ELP),
    ] {
        hart.rest[index] = value.unwrap_or(hart.rest[index]);
    }
    switches(options, &mut hart);
    Ok(hart)
}

/// The bits that the convenient switches set, on top of what --csr gave.
fn switches(options: &StartOptions, hart: &mut Hart) {
    let (menvcfg, senvcfg, mseccfg) = (word::MENVCFG, word::SENVCFG, word::MSECCFG);
    for (on, index, bits) in [
        (options.sv39, word::SATP, SV39),
        (options.shadow_stack, menvcfg, SSE),
        (options.shadow_stack, senvcfg, SSE),
        (options.landing_pads, menvcfg, LPE),
        (options.landing_pads, senvcfg, LPE),
        (options.landing_pads, mseccfg, MLPE),
    ] {
        if on {
            hart.rest[index] |= bits;
        }
    }
    if let Some(pmm) = options.masking {
        for index in [menvcfg, senvcfg, mseccfg] {
            hart.rest[index] = hart.rest[index] & !PMM | pmm << PMM_SHIFT;
        }
    }
}

fn assignment<'a>(
    option: &str,
    pair: &'a str,
    example: &str,
) -> Result<(&'a str, &'a str), Failure> {
    let wrong = || format!("'{pair}' has no '='; write for instance {option} {example}");
    pair.split_once('=')
        .ok_or_else(|| Failure::at(option, wrong()))
}

/// A value that may be given once for each register or CSR.
fn once(
    option: &str,
    name: &str,
    set: &mut Vec<usize>,
    index: usize,
    value: Result<u64, String>,
) -> Result<u64, Failure> {
    let place = format!("{option} {name}");
    if set.contains(&index) {
        return Err(Failure::at(&place, "it is given twice; give it once"));
    }
    set.push(index);
    value.map_err(|wrong| Failure::at(&place, wrong))
}
