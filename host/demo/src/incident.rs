//! The incident as a whole: the stray store, the two runs of the same image, and that of the mended one, held to what
//! they must show.

use crate::image::{place, symbol, MENDED, TORQUE};
use crate::layout::{self, Shadow};
use crate::outcome::{newton_metres, step_ms, Outcome, Sample};
use crate::stray::{Stray, RA};
use sporhulma::word;

/// Causes (docs/HART.md, 6.6), and the tval of a shadow-stack mismatch (8.5).
const ECALL_FROM_U: u64 = 8;
const SOFTWARE_CHECK: u64 = 18;
const SHADOW_STACK: u64 = 3;

pub struct Incident {
    pub stray: Stray,
    pub off: Outcome,
    pub on: Outcome,
    /// The controller with the product that saturates, with the shadow stack on.
    pub mended: Outcome,
    /// The limiter's limit in Nm.
    pub limit: f64,
}

impl Incident {
    /// Runs everything. An end that is not the incident's is an error: the story is only told when it is true.
    pub fn happen() -> Result<Incident, String> {
        let incident = Incident {
            stray: Stray::find()?,
            off: Outcome::of_run(TORQUE, Shadow::Off)?,
            on: Outcome::of_run(TORQUE, Shadow::On)?,
            mended: Outcome::of_run(MENDED, Shadow::On)?,
            limit: newton_metres(symbol("LIMIT")?)?,
        };
        incident.stray.skips_the_limiter()?;
        let whole = (ECALL_FROM_U, 0, symbol("finish")?);
        let caught = (SOFTWARE_CHECK, SHADOW_STACK, symbol("book_load.check")?);
        expect("off", "controller", &incident.off, whole)?;
        expect("on", "controller", &incident.on, caught)?;
        expect("on", "mended controller", &incident.mended, whole)?;
        Ok(incident)
    }

    /// The samples in which the drive got more than the limit: the limiter was skipped.
    pub fn kick(&self) -> impl Iterator<Item = &Sample> {
        self.off
            .samples
            .iter()
            .filter(|sample| sample.command > self.limit)
    }

    /// The largest change of the drawn speed from one sample to the next, in rpm.
    pub fn roughness(&self) -> f64 {
        let change = |pair: &[Sample]| (pair[1].speed - pair[0].speed).abs();
        self.off.samples.windows(2).map(change).fold(0.0, f64::max)
    }

    /// The last sample before the shadow stack trapped.
    pub fn last(&self) -> Result<&Sample, String> {
        let none = "with the shadow stack on there is no sample before the trap";
        self.on.samples.last().ok_or_else(|| none.to_string())
    }

    /// When the shadow stack trapped: in the control step whose sample is the first one missing.
    pub fn trap_ms(&self) -> Result<f64, String> {
        Ok(self.on.samples.len() as f64 * step_ms()?)
    }

    /// The return address that the trapping pop-check was given.
    pub fn used(&self) -> u64 {
        self.on.hart.x[RA]
    }

    /// Where the pushed return address lies on the shadow stack (a pop-check that traps leaves ssp).
    pub fn pushed_at(&self) -> u64 {
        self.on.hart.rest[word::SSP]
    }

    /// The return address that was pushed, from the shadow stack itself.
    pub fn pushed(&self) -> Result<u64, String> {
        layout::bytes(&self.on.memory, self.pushed_at()).map(u64::from_le_bytes)
    }
}

/// An error unless the run ended with this cause, this tval, at this address.
fn expect(
    shadow: &str,
    what: &str,
    outcome: &Outcome,
    wanted: (u64, u64, u64),
) -> Result<(), String> {
    let (cause, tval, pc) = outcome.trap();
    if (cause, tval, pc) == wanted {
        return Ok(());
    }
    Err(format!(
        "with the shadow stack {shadow} the {what} ends with cause {cause}, tval {tval:#x} at {}, \
         and not with cause {}, tval {:#x} at {}",
        place(pc),
        wanted.0,
        wanted.1,
        place(wanted.2)
    ))
}
