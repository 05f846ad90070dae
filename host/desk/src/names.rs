//! Modes, registers and CSRs by the names that an engineer writes.

pub use asm::nearest;
use disasm::register_number as any_register;
use sporhulma::{word, REST};

/// The modes' numbers.
pub const U: u64 = 0;
pub const S: u64 = 1;
pub const M: u64 = 3;

/// The stack pointer's number.
pub const SP: usize = 2;

pub fn mode_name(mode: u64) -> &'static str {
    match mode {
        U => "U",
        S => "S",
        _ => "M",
    }
}

/// A register that can be set, by its ABI name, as x1 to x31, or as fp.
pub fn register_number(name: &str) -> Result<usize, String> {
    match any_register(name) {
        Some(0) => Err("register zero (x0) is always 0 and cannot be set".into()),
        Some(n) => Ok(n),
        None => Err(format!(
            "'{name}' is no register; use names as a0, sp, ra or x10"
        )),
    }
}

/// A CSR's place in `rest`. pc, mode and elp have options of their own.
pub fn csr_index(name: &str) -> Result<usize, String> {
    if name == "sstatus" {
        return Err("sstatus is a view of mstatus; set mstatus instead".into());
    }
    let csrs = &REST[word::SSP..];
    match csrs.iter().position(|csr| *csr == name) {
        Some(at) => Ok(word::SSP + at),
        None => Err(match nearest(name, csrs.iter().copied()) {
            Some(near) => format!("'{name}' is no CSR of this hart; did you mean {near}?"),
            None => format!("'{name}' is no CSR of this hart; it has {}", csrs.join(" ")),
        }),
    }
}
