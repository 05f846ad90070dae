//! A run of the controller from its start to its first trap, and the samples that it left in memory.

use crate::image::symbol;
use crate::layout::{self, Shadow};
use sporhulma::{word, Hart};

/// The most that one call of the hart takes, and the most calls before the controller counts as hung.
const BUDGET: u64 = 1_000_000;
const CALLS: u64 = 10;

/// What a control step leaves: set point and speed in rpm, torques in Nm.
#[derive(Clone, Copy, PartialEq, Debug)]
pub struct Sample {
    pub ms: f64,
    pub reference: f64,
    pub speed: f64,
    pub demand: f64,
    pub command: f64,
}

/// A whole run: where the hart and its memory ended, after how many instructions.
pub struct Outcome {
    pub hart: Hart,
    pub memory: Vec<u8>,
    pub instructions: u64,
    pub samples: Vec<Sample>,
}

impl Outcome {
    /// Runs an image of the controller to its first trap.
    pub fn of_run(image: &[u8], shadow: Shadow) -> Result<Outcome, String> {
        let (mut hart, mut memory) = (layout::hart(shadow)?, layout::memory(image));
        let map = layout::map();
        let mut instructions = 0;
        for _ in 0..CALLS {
            let answer = sporhulma::run(&mut hart, &mut memory, &map, BUDGET);
            if answer.refusal != 0 {
                return Err(format!(
                    "the hart refuses the controller: refusal {}",
                    answer.refusal
                ));
            }
            instructions += answer.count;
            if answer.trapped {
                let samples = samples(&memory)?;
                return Ok(Outcome {
                    hart,
                    memory,
                    instructions,
                    samples,
                });
            }
        }
        Err(format!(
            "the controller does not end: {instructions} instructions and no trap"
        ))
    }

    /// The trap that ended it, as the hart's M mode has it: cause, tval and pc.
    pub fn trap(&self) -> (u64, u64, u64) {
        let rest = &self.hart.rest;
        (rest[word::MCAUSE], rest[word::MTVAL], rest[word::MEPC])
    }

    /// The largest torque that the drive got, in Nm.
    pub fn peak(&self) -> f64 {
        let commands = self.samples.iter().map(|sample| sample.command);
        commands.fold(0.0, f64::max)
    }
}

/// Length of a control step.
pub fn step_ms() -> Result<f64, String> {
    Ok(symbol("STEP_US")? as f64 / 1000.0)
}

/// A torque of the controller in Nm.
pub fn newton_metres(torque: u64) -> Result<f64, String> {
    Ok(torque as f64 / symbol("TORQUE_NM")? as f64)
}

/// How many samples there are so far: from LOG to the place where the next one would go.
pub fn taken(memory: &[u8]) -> Result<u64, String> {
    let next = u64::from_le_bytes(layout::bytes(memory, symbol("DATA")? + symbol("NEXT")?)?);
    Ok(next.saturating_sub(symbol("LOG")?) / symbol("SAMPLE")?)
}

fn samples(memory: &[u8]) -> Result<Vec<Sample>, String> {
    let (log, size) = (symbol("LOG")?, symbol("SAMPLE")?);
    (0..taken(memory)?)
        .map(|step| sample(memory, step, log + step * size))
        .collect()
}

fn sample(memory: &[u8], step: u64, address: u64) -> Result<Sample, String> {
    let word = |at: u64| layout::bytes(memory, address + at).map(u32::from_le_bytes);
    Ok(Sample {
        ms: step as f64 * step_ms()?,
        reference: f64::from(word(0)?),
        speed: f64::from(word(4)?),
        demand: newton_metres(word(8)?.into())?,
        command: newton_metres(word(12)?.into())?,
    })
}
