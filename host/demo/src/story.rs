//! What happened, in a dozen lines of plain words. Every number is taken from the runs.

use crate::image::{place, symbol};
use crate::incident::Incident;
use crate::outcome::{newton_metres, step_ms};

/// The story: what went wrong, what came of it with the shadow stack off and on, and what the mended controller does.
pub fn of(incident: &Incident) -> Result<String, String> {
    Ok([
        what_went_wrong(incident)?,
        shadow_off(incident),
        shadow_on(incident)?,
        mended(incident),
    ]
    .join("\n"))
}

fn what_went_wrong(incident: &Incident) -> Result<String, String> {
    let stray = &incident.stray;
    Ok(format!(
        "A drive holds {} rpm; at {} ms its set point jumps to {} rpm.\n\
         At {} ms book_load multiplies speed, {} times {} rpm, by demanded torque, {} times {} Nm: {}.\n\
         In sixteen bits without saturation that is {}, which is class {} in a table of 0 to {}.\n\
         So the counter to raise is at {:#x}, below the table at {:#x}: there book_load has saved its\n\
         return address. The store turns {:#x} ({}) into {:#x} ({}).\n",
        symbol("HOLD")?,
        symbol("JUMP")? as f64 * step_ms()?,
        symbol("GOAL")?,
        stray.ms,
        stray.speed_factor,
        1 << symbol("SPEED_SHIFT")?,
        stray.torque_factor,
        newton_metres(1 << symbol("TORQUE_SHIFT")?)?,
        stray.full_product(),
        stray.product,
        stray.class()?,
        symbol("CLASSES")? - 1,
        stray.counter,
        stray.table,
        stray.pushed,
        place(stray.pushed),
        stray.stored,
        place(stray.stored),
    ))
}

fn shadow_off(incident: &Incident) -> String {
    let stray = &incident.stray;
    format!(
        "Shadow stack off: the return goes to {:#x} and skips the call of limit_torque, {} times in all.\n\
         \x20 The drive gets up to {:.1} Nm where {:.0} Nm is the limit. Nothing stops: the run ends with its\n\
         \x20 ecall after {} samples ({} instructions), and the speed that is drawn is smooth:\n\
         \x20 from one sample to the next it moves by {:.0} rpm at most.\n",
        stray.landed,
        incident.kick().count(),
        incident.off.peak(),
        incident.limit,
        incident.off.samples.len(),
        incident.off.instructions,
        incident.roughness(),
    )
}

fn shadow_on(incident: &Incident) -> Result<String, String> {
    let (cause, tval, pc) = incident.on.trap();
    let sent = incident
        .on
        .samples
        .last()
        .map_or(0.0, |sample| sample.command);
    Ok(format!(
        "Shadow stack on, same image: trap at {} ms, cause {cause} (software check), tval {tval} (shadow stack),\n\
         \x20 at {pc:#x} ({}), before the return: the return address {:#x} is not\n\
         \x20 the pushed {:#x}, which lies on the shadow stack at {:#x}.\n\
         \x20 The last torque that the drive got is {sent:.1} Nm.\n",
        incident.trap_ms()?,
        place(pc),
        incident.used(),
        incident.pushed()?,
        incident.pushed_at(),
    ))
}

fn mended(incident: &Incident) -> String {
    format!(
        "Shadow stack on, mended so that the product saturates: runs through, the drive gets {:.1} Nm at most.\n",
        incident.mended.peak()
    )
}
