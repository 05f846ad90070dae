//! Where and why a run stopped: in words, and as a JSON object.

use crate::drive::{End, Stop};
use crate::ends;
use crate::explain::{cause_name, shadow_stack_on, Rows, Trap};
use crate::facts::{hex, object, Facts};
use crate::frames::{Scope, Table};
use crate::hints;
use crate::names::{mode_name, SP};
use crate::notes;
use crate::registers;
use crate::setup::Job;
use crate::state::State;
use crate::symbols::Symbols;
use crate::text;
use disasm::register;
use formats::csr::field::{LPE, SV39};
use serde_json::Value;
use sporhulma::{word, REST};

/// What is said at the end.
pub struct Report {
    headline: String,
    rows: Rows,
    trap: Option<Trap>,
    notes: Vec<String>,
    /// 0 if it ended as asked, 3 if not; or the program's own, where that is asked for.
    pub status: u8,
}

impl Report {
    pub fn new(end: &End, job: &Job) -> Report {
        let trap = match (end.stop, &end.before, end.cause) {
            (Stop::Trap | Stop::Stuck, Some(before), Some(cause)) => {
                let hart = &end.after.hart;
                Some(Trap::explain(before, &job.map, &job.symbols, hart, cause))
            }
            _ => None,
        };
        // Where no step was made, nothing could have an effect.
        let mut notes = match end.count {
            0 => Vec::new(),
            _ => notes::notes(&end.watch),
        };
        notes.extend(job.window.missed(end));
        let good = ends::as_asked(end, trap.as_ref(), job.expect.as_ref());
        let mut rows = rows(end, job, trap.as_ref());
        rows.extend(notes.iter().map(|note| ("note", note.clone())));
        rows.extend(job.expect.iter().map(|expect| {
            let not = if good { "" } else { "not " };
            ("expect", format!("{not}as --expect asks: {}", expect.text))
        }));
        let status = match end.stop {
            _ if job.strict && !notes.is_empty() => 3,
            // As a system hands it on: the low eight bits.
            Stop::Exit(value) if job.exit_status => value as u8,
            _ if good => 0,
            _ => 3,
        };
        Report {
            headline: ends::headline(end, trap.as_ref()),
            rows,
            trap,
            notes,
            status,
        }
    }

    pub fn text(&self) -> String {
        text::wrapped("", self.headline.split(' '), 2) + &text::rows(&self.rows)
    }

    /// The object that docs/DESK.md describes.
    pub fn json(&self, end: &End, job: &Job) -> Value {
        let dumps = job.dumps.iter().flat_map(|dump| dump.json(end, &job.map));
        let mut members = self.ended(end);
        let start = job.image.start.map_or(Value::Null, hex);
        let image = [
            ("format", Value::from(job.image.format_name())),
            ("start", start),
        ];
        members.push(("image", object(image)));
        members.extend(hart_json(end, &job.symbols));
        members.push(("dump", Value::Array(dumps.collect())));
        if let Some((word, text)) = given(job) {
            let word = Value::from(format!("{word:#010x}"));
            let given = [("word", word), ("text", Value::from(text))];
            members.push(("given", object(given)));
        }
        members.extend(end.profile.iter().map(|counts| ("profile", counts.json())));
        if let Some(layout) = &job.layout {
            let lines = layout.text.lines().map(Value::from);
            members.push(("map", lines.collect()));
        }
        if job.frames {
            let scope = Scope::of(&job.state.hart, end.followed);
            members.push(("frames", frames(job).json_in_run(&scope)));
        }
        object(members)
    }

    /// How it ended, and what is said about it.
    fn ended(&self, end: &End) -> Facts {
        let rows = self.rows.iter();
        let rows = rows.map(|(label, text)| format!("{label}: {text}"));
        let words: Vec<String> = [self.headline.clone()].into_iter().chain(rows).collect();
        let exit = match end.stop {
            Stop::Exit(value) => Value::from(value),
            _ => Value::Null,
        };
        vec![
            ("status", Value::from(self.status)),
            ("stopped", Value::from(ends::name(end.stop))),
            ("count", Value::from(end.count)),
            ("followed", Value::from(end.followed)),
            ("exit", exit),
            ("trap", self.trap.as_ref().map_or(Value::Null, trap_json)),
            ("words", Value::from(words)),
            ("notes", Value::from(self.notes.clone())),
            ("calls", end.environment.json()),
        ]
    }
}

/// What explains the end, where the run began, and what served it.
fn rows(end: &End, job: &Job, trap: Option<&Trap>) -> Rows {
    let next = |state: &State| state.next_text(&job.map, &job.symbols);
    let mut rows = trap.map_or_else(Vec::new, |trap| trap.rows.clone());
    rows.push(match (end.stop, &end.before) {
        (Stop::Exit(_), Some(before)) => ("at", next(before)),
        (Stop::Trap | Stop::Stuck, _) => ("handler", next(&end.after)),
        _ => ("next", next(&end.after)),
    });
    rows.extend(start(job).map(|start| ("start", start)));
    rows.extend(given(job).map(|(word, text)| {
        let pc = job.state.pc();
        let place = format!("the first step's word, in place of a fetch at {pc:#x}");
        ("given", format!("{word:08x}  {text}: {place}"))
    }));
    rows.extend(user(job));
    let hints = hints::hints(end, trap, job);
    rows.extend(hints.into_iter().map(|hint| ("hint", hint)));
    rows.extend(end.environment.row().map(|calls| ("calls", calls)));
    rows
}

/// The word of `--word`, and its text.
fn given(job: &Job) -> Option<(u32, String)> {
    let word = job.state.given?;
    Some((word, disasm::text(word, job.state.pc())))
}

fn hart_json(end: &End, symbols: &Symbols) -> Facts {
    let hart = &end.after.hart;
    let rest = &hart.rest;
    let registers = (0..32).map(|n| (register(n), hex(hart.x[n])));
    let csrs = (word::SSP..REST.len()).map(|index| (REST[index], hex(rest[index])));
    let mut members = vec![("pc", hex(rest[word::PC]))];
    members.extend(symbols.facts(rest[word::PC], end.after.space()));
    members.extend([
        ("mode", Value::from(mode_name(rest[word::MODE]))),
        ("elp", Value::from(rest[word::ELP])),
        ("registers", object(registers)),
        ("csrs", object(csrs)),
    ]);
    members
}

/// The start address that the image gives, and whether the hart began there.
fn start(job: &Job) -> Option<String> {
    let start = job.image.start?;
    let began = match job.state.pc() {
        pc if pc == start => "the hart began there".to_string(),
        pc => format!("the hart began at {pc:#x} (--pc start takes it)"),
    };
    Some(format!(
        "{start:#x}, as {} gives it; {began}",
        job.image.path
    ))
}

/// What `--user` set, as the hart had it at the start.
fn user(job: &Job) -> Rows {
    let (Some(layout), true) = (&job.layout, job.user) else {
        return Vec::new();
    };
    let hart = &job.state.hart;
    let pads = match (hart.rest[word::SENVCFG] & LPE != 0, layout.pads) {
        (true, pads) => format!("landing pads on ({pads} in the program)"),
        (false, 0) => "landing pads off, since the program has none".into(),
        (false, pads) => format!("landing pads off ({pads} in the program)"),
    };
    let shadow = match shadow_stack_on(hart) {
        true => "shadow stack on",
        false => "shadow stack off",
    };
    let pc = job.symbols.told(job.state.pc(), job.state.space());
    let mode = mode_name(job.state.mode());
    let satp = match hart.rest[word::SATP] {
        SV39 => "under Sv39 by the map below",
        _ => "with satp Bare",
    };
    let (sp, ssp) = (hart.x[SP], hart.rest[word::SSP]);
    vec![
        ("user", format!("{mode} {satp}, {shadow}, {pads}")),
        (
            "began",
            format!("at pc {pc} with sp {sp:#x} and ssp {ssp:#x}"),
        ),
    ]
}

fn trap_json(trap: &Trap) -> Value {
    let facts = trap.facts.iter().map(|(key, value)| (*key, value.clone()));
    let mut members = vec![
        ("cause", Value::from(trap.cause)),
        ("name", Value::from(cause_name(trap.cause))),
        ("tval", hex(trap.tval)),
        ("pc", hex(trap.pc)),
    ];
    members.extend(trap.place.iter().cloned());
    members.extend([
        ("from", Value::from(mode_name(trap.from))),
        ("to", Value::from(mode_name(trap.to))),
        ("facts", object(facts)),
    ]);
    object(members)
}

/// What the map names, by the hart at the start of the run.
fn frames(job: &Job) -> Table {
    Table::new(&job.state.hart, job.state.mem.len() as u64, &job.map)
}

/// The tables that were asked for.
pub fn tables(end: &End, job: &Job) -> String {
    let mut text = String::new();
    if let Some(layout) = &job.layout {
        let lines = layout.text.lines().map(|line| format!("  {line}\n"));
        text += "\nThe map that was laid out, as --map FILE takes it:\n";
        text += &lines.collect::<String>();
    }
    if job.frames {
        let scope = Scope::of(&job.state.hart, end.followed);
        text += &format!("\n{}", frames(job).text(&scope));
    }
    if let Some(counts) = &end.profile {
        text += &format!("\n{}", counts.text());
    }
    if job.registers {
        text += "\n";
        text += &registers::table(&end.after);
    }
    for dump in &job.dumps {
        text += &format!("\n{}", dump.text(end, &job.map, &job.symbols));
    }
    text
}
