//! The controller's two images and their symbols, made by examples/torque/build. They differ in their product, which
//! stands last, and so they have the same symbols.

use formats::number::unsigned;

/// The code with the product that wraps, to be placed at the start of memory.
pub const TORQUE: &[u8] = include_bytes!("../../../examples/torque/torque.bin");

/// The same with the product that saturates.
pub const MENDED: &[u8] = include_bytes!("../../../examples/torque/mended.bin");

/// Lines of a value in hex and a name: addresses in the code, and the constants of the source.
const SYMBOLS: &str = include_str!("../../../examples/torque/torque.sym");

fn symbols() -> impl Iterator<Item = (u64, &'static str)> {
    SYMBOLS.lines().filter_map(|line| {
        let (value, name) = line.split_once(' ')?;
        Some((unsigned(value).ok()?, name))
    })
}

/// The value of a symbol of torque.s.
pub fn symbol(name: &str) -> Result<u64, String> {
    symbols()
        .find(|&(_, known)| known == name)
        .map(|(value, _)| value)
        .ok_or_else(|| format!("torque.sym has no symbol {name}; run examples/torque/build"))
}

/// An address of the code as an engineer reads it: the function it lies in and how far from its start.
/// Functions have names in small letters without a dot; constants are in capitals, places in a function have dots.
pub fn place(address: u64) -> String {
    let function = |name: &str| !name.contains(|c: char| c == '.' || c.is_ascii_uppercase());
    let below = symbols().filter(|&(start, name)| start <= address && function(name));
    match below.max_by_key(|&(start, _)| start) {
        Some((start, name)) if start == address => name.to_string(),
        Some((start, name)) => format!("{name}+{:#x}", address - start),
        None => format!("{address:#x}"),
    }
}
