//! The environment of a program: what serves its ECALLs (`--syscalls`) and its semihosting calls (`--semihosting`).
//!
//! The desk stands in for a monitor at tvec. The hart takes the trap; the desk does what was asked, by the caller's registers
//! and by its own accesses to memory; it sets epc + 4 and returns with MRET or SRET, by the proved step.

mod caller;
mod console;
mod errno;
mod semihosting;
mod syscalls;

pub use caller::Write;
pub use console::Output;

use crate::facts::object;
use crate::failure::Failure;
use crate::map::PageMap;
use crate::names::{M, S, U};
use crate::place::{Access, Kind};
use crate::state::State;
use caller::Caller;
use console::Console;
use semihosting::Semihosting;
use serde_json::Value;
use sporhulma::word;
use std::collections::BTreeMap;
use syscalls::Syscalls;

const MRET: u32 = 0x3020_0073;
const SRET: u32 = 0x1020_0073;
const EBREAK: u64 = 3;

/// What is served.
#[derive(Clone, Copy, Default)]
pub struct Services {
    pub semihosting: bool,
    pub syscalls: bool,
}

/// The two kinds of calls.
#[derive(Clone, Copy, PartialEq, Eq, PartialOrd, Ord, Debug)]
pub enum Call {
    Semihosting,
    System,
}

/// What a call comes to.
enum Reply {
    /// It was served, and a0 holds its answer.
    Answer,
    /// It is none that is served: a0 holds an error.
    Unknown(u64),
    Exit(u64),
}

/// What became of a trap.
pub enum Served {
    /// It is none of the environment's.
    No,
    /// The program goes on; these bytes were written.
    Returned(Vec<Write>),
    /// The program has ended with this value, C's int.
    Exit(i32),
}

pub struct Environment {
    services: Services,
    /// The mode in which the run began: ECALLs from this one are served.
    mode: u64,
    console: Console,
    semihosting: Semihosting,
    syscalls: Syscalls,
    /// How many calls were served.
    pub served: u64,
    /// Calls that were answered with an error since they are not served, and how often.
    pub unserved: BTreeMap<(Call, u64), u64>,
}

impl Environment {
    /// For a run that begins in `mode`; `end` is the address behind the program's data.
    pub fn new(services: Services, mode: u64, end: Option<u64>, output: Output) -> Environment {
        Environment {
            services,
            mode,
            console: Console::new(output),
            semihosting: Semihosting::default(),
            syscalls: Syscalls::new(end),
            served: 0,
            unserved: BTreeMap::new(),
        }
    }

    /// Serves the call that has just trapped with `cause`, if it is one.
    pub fn serve(
        &mut self,
        state: &mut State,
        map: &PageMap,
        cause: u64,
    ) -> Result<Served, Failure> {
        let mut caller = Caller::new(state, map);
        let Some(call) = self.asked(&caller, cause) else {
            return Ok(Served::No);
        };
        let reply = match call {
            Call::Semihosting => self.semihosting.serve(&mut caller, &mut self.console)?,
            Call::System => self.syscalls.serve(&mut caller, &mut self.console)?,
        };
        let writes = caller.writes;
        match reply {
            Reply::Exit(value) => return Ok(Served::Exit(value as i32)),
            Reply::Unknown(number) => *self.unserved.entry((call, number)).or_default() += 1,
            Reply::Answer => self.served += 1,
        }
        go_back(state, map)?;
        Ok(Served::Returned(writes))
    }

    /// Which call a trap is.
    fn asked(&self, caller: &Caller, cause: u64) -> Option<Call> {
        let from_mode = match self.mode {
            U => 8,
            S => 9,
            _ => 11,
        };
        if self.services.syscalls && cause == from_mode {
            Some(Call::System)
        } else if self.services.semihosting && cause == EBREAK && caller.semihosts() {
            Some(Call::Semihosting)
        } else {
            None
        }
    }

    /// Whether what the program wrote ended in the middle of a line.
    pub fn ended_in_line(&self) -> bool {
        !self.console.line_begins
    }

    /// The same for programs.
    pub fn json(&self) -> Value {
        let unserved = self.unserved.iter().map(|((call, number), count)| {
            object([
                ("call", Value::from(called(*call, *number))),
                ("number", Value::from(*number)),
                ("count", Value::from(*count)),
            ])
        });
        object([
            ("served", Value::from(self.served)),
            ("unserved", Value::Array(unserved.collect())),
        ])
    }

    /// What the report says about the calls; nothing where none was made.
    pub fn row(&self) -> Option<String> {
        let unserved: u64 = self.unserved.values().sum();
        if self.served + unserved == 0 {
            return None;
        }
        let listed = self.unserved.iter().map(|((call, number), count)| {
            let times = if *count == 1 {
                String::new()
            } else {
                format!(" ({count} times)")
            };
            format!("{}{times}", called(*call, *number))
        });
        let listed: Vec<String> = listed.collect();
        let not = match listed.as_slice() {
            [] => String::new(),
            _ => format!(
                "; not served, and answered with an error: {}",
                listed.join(", ")
            ),
        };
        Some(format!("{} served{not}", self.served))
    }
}

/// A call that `before` makes and that nothing has served: which option would.
pub fn unserved(before: &State, map: &PageMap, cause: u64, services: Services) -> Option<String> {
    let word = |address| {
        let (kind, width) = (Kind::Fetch, 4);
        let fetch = Access {
            kind,
            width,
            address,
        };
        let physical = before.path(map, fetch).end.ok()?;
        Some(before.bytes(physical, 4) as u32)
    };
    let number = before.hart.x[syscalls::A7];
    match cause {
        EBREAK if !services.semihosting => {
            let pc = before.pc();
            let call = semihosting::is_call(word(pc.wrapping_sub(4)), word(pc.wrapping_add(4)));
            call.then(|| "this is a semihosting call; --semihosting serves it".into())
        }
        8 | 9 | 11 if services.syscalls => Some(
            "--syscalls serves ECALLs from the mode in which the run began, and this is another"
                .into(),
        ),
        8 | 9 | 11 => syscalls::served(number)
            .map(|name| format!("a7 is {number}, the system call {name}; --syscalls serves it")),
        _ => None,
    }
}

/// A call that is not served, by name where it has one.
pub fn called(call: Call, number: u64) -> String {
    match call {
        Call::Semihosting => match semihosting::name(number) {
            Some(name) => format!("semihosting {number:#x} {name}"),
            None => format!("semihosting {number:#x}"),
        },
        Call::System => match syscalls::name(number) {
            Some(name) => format!("system call {number} {name}"),
            None => format!("system call {number}"),
        },
    }
}

/// Returns behind the call, from the mode that took the trap, by the proved step.
fn go_back(state: &mut State, map: &PageMap) -> Result<(), Failure> {
    let (epc, back) = match state.mode() {
        M => (word::MEPC, MRET),
        _ => (word::SEPC, SRET),
    };
    let State { hart, mem, .. } = state;
    hart.rest[epc] = hart.rest[epc].wrapping_add(4);
    let answer = sporhulma::step_word(hart, mem, &map.words, back);
    match (answer.refusal, answer.trapped) {
        (0, false) => Ok(()),
        _ => Err(Failure::Tool(
            "the return from a call of the program did not go through: a fault of the desk".into(),
        )),
    }
}
