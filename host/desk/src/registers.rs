//! Tables of registers and CSRs.

use crate::names::mode_name;
use crate::state::State;
use disasm::register;
use sporhulma::{word, REST};

/// The registers by their ABI names, then the rest of the hart.
pub fn table(state: &State) -> String {
    let x: Vec<String> = (0..32)
        .map(|n| format!("{:<5}{:#018x}", register(n), state.hart.x[n]))
        .collect();
    let rest: Vec<String> = REST
        .iter()
        .zip(state.hart.rest)
        .enumerate()
        .map(|(index, (name, value))| match index {
            word::MODE => format!("{name:<9}{:<18}", mode_name(value)),
            _ => format!("{name:<9}{value:#018x}"),
        })
        .collect();
    columns(&x, 4) + &columns(&rest, 3)
}

fn columns(cells: &[String], columns: usize) -> String {
    let line = |row: &[String]| row.join("  ").trim_end().to_string() + "\n";
    cells.chunks(columns).map(line).collect()
}
