//! The names of registers (ABI) and of the CSRs that docs/HART.md, 5.1, lists.

use formats::csr::ALL as CSRS;

const REGISTERS: [&str; 32] = [
    "zero", "ra", "sp", "gp", "tp", "t0", "t1", "t2", "s0", "s1", "a0", "a1", "a2", "a3", "a4",
    "a5", "a6", "a7", "s2", "s3", "s4", "s5", "s6", "s7", "s8", "s9", "s10", "s11", "t3", "t4",
    "t5", "t6",
];

/// The ABI name of register `n`: `register(10)` is `a0`. Panics if there is no register `n`.
pub fn register(n: usize) -> &'static str {
    REGISTERS[n]
}

/// The name of the CSR at `address`, if the hart has one there.
pub fn csr_name(address: u16) -> Option<&'static str> {
    let at = CSRS.binary_search_by_key(&address, |csr| csr.0).ok()?;
    Some(CSRS[at].1)
}

/// The register of an ABI name, of x0 to x31, or of fp.
pub fn register_number(name: &str) -> Option<usize> {
    let numbered = || {
        let n = name.strip_prefix('x')?.parse().ok()?;
        (n < REGISTERS.len() && name == format!("x{n}")).then_some(n)
    };
    match name {
        "fp" => Some(8),
        _ => REGISTERS
            .iter()
            .position(|known| *known == name)
            .or_else(numbered),
    }
}

/// The address of the hart's CSR of this name.
pub fn csr_address(name: &str) -> Option<u16> {
    let csr = CSRS.iter().find(|csr| csr.1 == name)?;
    Some(csr.0)
}

/// The names of the hart's CSRs, by address.
pub fn csr_names() -> impl Iterator<Item = &'static str> {
    CSRS.iter().map(|csr| csr.1)
}
