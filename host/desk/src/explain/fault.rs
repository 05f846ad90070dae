//! An access that a rule of "From address to byte" refused.

use super::{Rows, Verdict};
use crate::facts::hex;
use crate::names::{mode_name, M};
use crate::place::{name, Path};
use crate::symbols::Symbols;
use serde_json::Value;

/// The trap of a refused access; none if it was granted.
pub fn verdict(path: &Path, symbols: &Symbols) -> Option<Verdict> {
    let refused = path.end.as_ref().err()?;
    let mut rows = rows(path, symbols);
    let why = format!(
        "by rule {} of \"From address to byte\": {}",
        refused.rule, refused.why
    );
    rows.push(("refused", why));
    rows.extend(path.entry.map(|entry| entry.row()));
    let facts = vec![
        ("rule", Value::from(refused.rule)),
        ("reason", Value::from(refused.why.as_str())),
        ("access", Value::from(name(path.access.kind))),
        ("width", Value::from(path.access.width)),
        ("address", hex(path.access.address)),
        ("transformed", hex(path.transformed)),
        ("symbol", symbols.symbol(path.transformed, path.space())),
        ("effective_mode", Value::from(mode_name(path.mode))),
        (
            "entry",
            path.entry
                .map_or(Value::Null, |entry| Value::from(entry.text())),
        ),
    ];
    Some(Verdict {
        cause: refused.cause,
        tval: path.transformed,
        rows,
        facts,
    })
}

/// The access as computed, as whom, and that it was not masked where that made a difference.
fn rows(path: &Path, symbols: &Symbols) -> Rows {
    let access = &path.access;
    let kind = name(access.kind);
    let met = symbols.shown(path.transformed, path.space());
    let at = match path.transformed == access.address {
        true => met,
        false => format!("{:#x}, after masking {met}", access.address),
    };
    let text = format!("{kind} of {} bytes at {at}", access.width);
    let regime = match (path.sv39, path.mode) {
        (true, _) => "under Sv39",
        (false, M) => "where addresses are physical",
        (false, _) => "while satp is Bare, so addresses are physical",
    };
    let mut rows = vec![
        ("access", text),
        ("as", format!("{} {regime}", mode_name(path.mode))),
    ];
    rows.extend(path.lifted.map(unmasked));
    rows
}

/// Why the address kept its upper bits (rule 7.2 e): an engineer who set PMM expects them to be gone.
fn unmasked(masked: u64) -> (&'static str, String) {
    let why = format!(
        "off for this access: mstatus has MPRV and MXR both set (masked, it would be at {masked:#x})"
    );
    ("masking", why)
}
