//! Hints about slips that are easily made, beside what explains the end of a run.

use crate::drive::{End, Stop};
use crate::environment;
use crate::explain::{access, Trap};
use crate::map::PageMap;
use crate::names::SP;
use crate::place::Kind;
use crate::setup::Job;
use crate::state::State;
use disasm::Word;
use sporhulma::{word, Hart, BASE};

/// How far below 0 a stack that began at 0 is taken to reach.
const STACK: i64 = 1 << 20;

/// What may be wrong in a run that ended so.
pub fn hints(end: &End, trap: Option<&Trap>, job: &Job) -> Vec<String> {
    let (start, map) = (&job.state.hart, &job.map);
    let Some(before) = &end.before else {
        return Vec::new();
    };
    let stays = end.stop == Stop::Steps && before.hart == end.after.hart;
    // A step that leaves the whole hart as it is, pc too, is a jump to itself: it writes no memory.
    let still =
        stays.then(|| "the last step changed nothing: the program waits here for ever".into());
    let trap = trap.and_then(|trap| {
        no_memory(before, trap, end.count)
            .or_else(|| no_stack(before, trap, start, map))
            .or_else(|| environment::unserved(before, map, trap.cause, job.services))
    });
    still.into_iter().chain(trap).collect()
}

/// A fetch outside memory (cause 1) by an address that is not translated.
fn no_memory(before: &State, trap: &Trap, count: u64) -> Option<String> {
    let (pc, last) = (trap.pc, BASE + before.mem.len() as u64 - 1);
    let outside = pc < BASE || pc > last;
    if trap.cause != 1 || !outside {
        return None;
    }
    Some(match (count, pc) {
        (1, _) => format!(
            "the run began at {pc:#x}, outside memory ({BASE:#x} to {last:#x}); --pc ADDRESS says where the program starts"
        ),
        (_, 0) => {
            "pc is 0: a return or a call by an address that was never set, or a trap with tvec 0".into()
        }
        _ => format!("the program jumped to {pc:#x}, outside memory ({BASE:#x} to {last:#x})"),
    })
}

/// A fault by a stack pointer that nobody has set.
fn no_stack(before: &State, trap: &Trap, start: &Hart, map: &PageMap) -> Option<String> {
    if ![5, 7, 13, 15].contains(&trap.cause) {
        return None;
    }
    let word = before.next_word(map).ok()?;
    let sp = before.hart.x[SP] as i64;
    match access(before, word)?.kind {
        Kind::Push | Kind::Pop if before.hart.rest[word::SSP] == 0 => Some(
            "ssp is 0: no shadow stack was set up; --ssp ADDRESS gives the end of its pages (--user sets it)".into(),
        ),
        Kind::Load | Kind::Store
            if Word(word).rs1() as usize == SP
                && start.x[SP] == 0
                && (-STACK..=0).contains(&sp) =>
        {
            Some("sp was 0 at the start: no stack was set up; --x sp=ADDRESS gives its end (--user sets it)".into())
        }
        _ => None,
    }
}
