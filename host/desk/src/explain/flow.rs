//! Traps of control flow: landing pads, jump targets, ECALL and EBREAK.

use super::{family, Verdict};
use crate::facts::hex;
use crate::names::{mode_name, M, S, U};
use crate::place::by_the_rules;
use crate::state::State;
use crate::symbols::Symbols;
use disasm::Word;
use formats::csr::field::SSE;
use serde_json::Value;
use sporhulma::{word, Hart};

/// The active shadow enable of the current mode.
pub fn shadow_stack_on(hart: &Hart) -> bool {
    second::shadow_stack_on(&by_the_rules(hart))
}

/// Whether landing pads are on in the current mode.
pub fn pads_on(hart: &Hart) -> bool {
    second::pads_on(&by_the_rules(hart))
}

/// The trap where a landing pad is expected and another word stands.
pub fn landing_pad(before: &State, found: u32) -> Option<Verdict> {
    let hart = &before.hart;
    let label = hart.x[7] as u32 >> 12;
    let pad = found & 0xfff == 0x17 && [0, label].contains(&(found >> 12));
    if hart.rest[word::ELP] == 0 || !pads_on(hart) || pad {
        return None;
    }
    let rows = vec![
        (
            "why",
            "landing pad missing: an indirect jump led here, and ELP expects a pad".into(),
        ),
        (
            "expected",
            format!(
                "lpad {label:#x} (t2 = {:#x}), or lpad 0x0, which fits any label",
                hart.x[7]
            ),
        ),
        (
            "found",
            format!("{found:#010x}  {}", disasm::text(found, before.pc())),
        ),
    ];
    let facts = vec![
        ("expected_label", hex(label.into())),
        ("found", Value::from(format!("{found:#010x}"))),
    ];
    Some(Verdict {
        cause: 18,
        tval: 2,
        rows,
        facts,
    })
}

/// The trap of a jump or a taken branch to an address that is no multiple of 4.
pub fn target(before: &State, symbols: &Symbols, instruction: u32, family: u64) -> Option<Verdict> {
    let fields = Word(instruction);
    let pc = before.pc();
    let target = match family {
        family::JAL => pc.wrapping_add(fields.imm_j() as u64),
        family::JALR => {
            before.hart.x[fields.rs1() as usize].wrapping_add(fields.imm_i() as u64) & !1
        }
        _ if taken(&before.hart, fields) => pc.wrapping_add(fields.imm_b() as u64),
        _ => return None,
    };
    let shown = symbols.shown(target, before.space());
    let why = format!("rule 3: the jump's target {shown} is not a multiple of 4");
    let facts = vec![("rule", Value::from(3)), ("target", hex(target))];
    let verdict = Verdict {
        cause: 0,
        tval: target,
        rows: vec![("why", why)],
        facts,
    };
    (target % 4 != 0).then_some(verdict)
}

/// Whether a branch's condition holds.
fn taken(hart: &Hart, fields: Word) -> bool {
    let (one, other) = (hart.x[fields.rs1() as usize], hart.x[fields.rs2() as usize]);
    let holds = match fields.funct3() & 6 {
        0 => one == other,
        4 => (one as i64) < other as i64,
        _ => one < other,
    };
    holds != (fields.funct3() & 1 == 1)
}

pub fn ecall(before: &State) -> Verdict {
    let mode = before.mode();
    let cause = match mode {
        U => 8,
        S => 9,
        _ => 11,
    };
    let x = &before.hart.x;
    let why = format!(
        "the program made an environment call from {}",
        mode_name(mode)
    );
    let values = format!(
        "a7 = {:#x}, a0 = {:#x}, a1 = {:#x}, a2 = {:#x}",
        x[17], x[10], x[11], x[12]
    );
    let facts = vec![("a7", hex(x[17])), ("a0", hex(x[10]))];
    Verdict {
        cause,
        tval: 0,
        rows: vec![("why", why), ("values", values)],
        facts,
    }
}

pub fn ebreak(before: &State) -> Verdict {
    let why = "the program met a breakpoint (ebreak)".into();
    Verdict {
        cause: 3,
        tval: before.pc(),
        rows: vec![("why", why)],
        facts: Vec::new(),
    }
}

/// Which CSR and bit turns the shadow stack on in a mode, for a reason in words.
pub fn missing_enable(hart: &Hart) -> Option<&'static str> {
    match hart.rest[word::MODE] {
        M => None,
        _ if hart.rest[word::MENVCFG] & SSE == 0 => Some("menvcfg.SSE"),
        U if hart.rest[word::SENVCFG] & SSE == 0 => Some("senvcfg.SSE"),
        _ => None,
    }
}
