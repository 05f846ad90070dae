//! The stray store, watched step by step: which product wrapped, which counter it chose, what lay there, and
//! where the function then returned to. Everything is read from the hart at the places that torque.s names.

use crate::image::{symbol, TORQUE};
use crate::layout::{self, Shadow};
use crate::outcome;
use sporhulma::{word, Hart};

/// ABI names of the registers that are read.
pub(crate) const RA: usize = 1;
const SP: usize = 2;
const T0: usize = 5;
const A0: usize = 10;
const A1: usize = 11;

/// More single steps than this, and no stray store will come.
const MOST: u64 = 1_000_000;

/// The first store of book_load that hits its own saved return address.
#[derive(Clone, PartialEq, Debug, Default)]
pub struct Stray {
    /// When: the start of its control step.
    pub ms: f64,
    /// Speed in 16 rpm and demanded torque in half Nm, as they were multiplied.
    pub speed_factor: i64,
    pub torque_factor: i64,
    /// The product as it came back, in sixteen bits.
    pub product: i64,
    /// The load spectrum's address, and that of the counter which was stored.
    pub table: u64,
    pub counter: u64,
    /// Where the return address is saved; what it was, and what the store made of it.
    pub saved_at: u64,
    pub pushed: u64,
    pub stored: u64,
    /// Where the return really went.
    pub landed: u64,
}

impl Stray {
    /// The product as it should have been.
    pub fn full_product(&self) -> i64 {
        self.speed_factor * self.torque_factor
    }

    /// The class that the product stands for: the table's index, as the counter's address gives it.
    pub fn class(&self) -> Result<i64, String> {
        Ok((self.counter as i64 - self.table as i64) / symbol("COUNTER")? as i64)
    }

    /// An error unless the return lands just behind the call of the limiter, to which it should have gone.
    pub fn skips_the_limiter(&self) -> Result<(), String> {
        let limit = symbol("drive_step.limit")?;
        if (self.pushed, self.landed) == (limit, limit + 4) {
            return Ok(());
        }
        Err(format!(
            "the stray return goes from {:#x} to {:#x}, and not over the call of limit_torque at {limit:#x}",
            self.pushed, self.landed
        ))
    }

    /// Runs the controller with the shadow stack off, an instruction at a time, until book_load has
    /// returned through an address that is not the one it was called with.
    pub fn find() -> Result<Stray, String> {
        let places = Places::find()?;
        let (mut hart, mut memory) = (layout::hart(Shadow::Off)?, layout::memory(TORQUE));
        let map = layout::map();
        let mut seen = Stray::default();
        for _ in 0..MOST {
            let pc = hart.rest[word::PC];
            places.see(&mut seen, &hart, &memory)?;
            let answer = sporhulma::step(&mut hart, &mut memory, &map);
            if answer.refusal != 0 || answer.trapped {
                return Err(format!(
                    "the controller stops at {pc:#x} before any stray store"
                ));
            }
            if pc == places.ret && seen.stored != seen.pushed {
                seen.landed = hart.rest[word::PC];
                return Ok(seen);
            }
        }
        Err(format!("no stray store in {MOST} instructions"))
    }
}

/// The places in book_load at which something is to be seen.
struct Places {
    entry: u64,
    multiply: u64,
    product: u64,
    store: u64,
    check: u64,
    ret: u64,
    saved_ra: u64,
}

impl Places {
    fn find() -> Result<Places, String> {
        Ok(Places {
            entry: symbol("book_load")?,
            multiply: symbol("book_load.multiply")?,
            product: symbol("book_load.product")?,
            store: symbol("book_load.store")?,
            check: symbol("book_load.check")?,
            ret: symbol("book_load.return")?,
            saved_ra: symbol("SAVED_RA")?,
        })
    }

    /// Notes what the hart shows at its present place.
    fn see(&self, seen: &mut Stray, hart: &Hart, memory: &[u8]) -> Result<(), String> {
        let (pc, x) = (hart.rest[word::PC], &hart.x);
        if pc == self.entry {
            seen.pushed = x[RA];
            seen.table = x[A0];
            seen.ms = outcome::taken(memory)? as f64 * outcome::step_ms()?;
        } else if pc == self.multiply {
            seen.speed_factor = x[A0] as i64;
            seen.torque_factor = x[A1] as i64;
        } else if pc == self.product {
            seen.product = x[A0] as i64;
        } else if pc == self.store {
            seen.counter = x[T0];
            seen.saved_at = x[SP] + self.saved_ra;
        } else if pc == self.check {
            seen.stored = u64::from_le_bytes(layout::bytes(memory, seen.saved_at)?);
        }
        Ok(())
    }
}
