//! The table of frames in words.

use super::table::{Frame, Naming, Nothing};
use super::{Scope, Table};
use crate::map::{Entry, PAGE};
use crate::place::{name, Kind};
use crate::text::{rows, wrapped};
use sporhulma::BASE;
use std::ops::Range;

impl Table {
    /// All of it: the frames, then the entries that name none.
    pub fn text(&self, scope: &Scope) -> String {
        let (named, all) = (self.named.len() as u64, self.length / PAGE);
        let headline = format!(
            "By this map, a user program under Sv39 can name {named} of the {all} frames of memory ({BASE:#x} to {:#x}).",
            BASE + self.length - 1
        );
        let about = vec![("setting", self.setting()), ("theorem", scope.text())];
        let unnamed = self.length - named * PAGE;
        wrapped("", headline.split(' '), 2)
            + &rows(&about)
            + &format!("\nNamed, in its reach: {}\n", amount(named * PAGE))
            + &self.named.iter().map(frame).collect::<String>()
            + &format!("\nNot named, out of its reach: {}\n", amount(unnamed))
            + &self.unnamed.iter().map(range).collect::<String>()
            + &section("Of a frame outside memory", &self.outside, outside)
            + &section("Naming nothing for a user program", &self.nothing, nothing)
    }

    /// The bits of CSRs that the table depends on, each as it acts in U.
    fn setting(&self) -> String {
        let page = match self.sse() {
            0 => "so W alone is not valid; --shadow-stack sets it",
            _ => "so W alone is a shadow page",
        };
        let (sse, shadow_stack, mxr) = (self.sse(), self.shadow_stack(), self.mxr());
        format!("menvcfg.SSE {sse} ({page}), senvcfg.SSE {shadow_stack}, mstatus.MXR {mxr}")
    }
}

/// Entries under a title, or nothing where there are none.
fn section<T>(title: &str, entries: &[T], line: fn(&T) -> String) -> String {
    let count = match entries.len() {
        0 => return String::new(),
        1 => "1 entry".to_string(),
        more => format!("{more} entries"),
    };
    let lines: String = entries
        .iter()
        .map(|entry| wrapped("  ", line(entry).split(' '), 4))
        .collect();
    format!("\n{title}: {count}\n{lines}")
}

fn amount(bytes: u64) -> String {
    match bytes / PAGE {
        0 => "no frame".into(),
        1 => "1 frame, 4K".into(),
        more => format!("{more} frames, {}K", bytes >> 10),
    }
}

/// A frame with all that names it.
fn frame(frame: &Frame) -> String {
    let head = format!("  {:#x}  ", frame.address);
    let line = |head: &str, text: String| wrapped(head, text.split(' '), head.len() + 2);
    match frame.by.as_slice() {
        [one] => line(&head, naming(one)),
        more => {
            let below = " ".repeat(head.len());
            let lines: String = more.iter().map(|one| line(&below, naming(one))).collect();
            format!("{head}named by {} entries:\n{lines}", more.len())
        }
    }
}

fn range(range: &Range<u64>) -> String {
    let size = amount(range.end - range.start);
    format!("  {:#x} to {:#x}  {size}\n", range.start, range.end - 1)
}

/// An entry, what a user program can do by it, and what not as it stands.
fn naming(naming: &Naming) -> String {
    let usable: Vec<&str> = naming.usable.iter().copied().map(right).collect();
    let unusable = unusable(&naming.unusable);
    let mut parts = Vec::new();
    if !usable.is_empty() {
        parts.push(usable.join(", "));
    }
    if !unusable.is_empty() {
        parts.push(format!("not as it stands: {unusable}"));
    }
    if naming.shadow {
        parts.push("valid only by menvcfg.SSE".into());
    }
    format!("{}: {}", naming.entry.placed(), parts.join("; "))
}

/// Those that lack the same, together.
fn unusable(unusable: &[(Kind, Vec<&str>)]) -> String {
    let groups = unusable.chunk_by(|one, next| one.1 == next.1);
    let group = |group: &[(Kind, Vec<&str>)]| {
        let rights: Vec<&str> = group.iter().map(|one| right(one.0)).collect();
        format!("{} ({})", rights.join(", "), group[0].1.join(", "))
    };
    groups.map(group).collect::<Vec<_>>().join(", ")
}

/// A kind of access as what a program may do.
fn right(kind: Kind) -> &'static str {
    match kind {
        Kind::Load => "read",
        Kind::Store => "write",
        Kind::Fetch => "execute",
        shadow => name(shadow),
    }
}

fn outside(entry: &Entry) -> String {
    let what = "it names no byte of memory, and what it allows is an access fault (rule 9)";
    format!("{}: {what}", entry.placed())
}

fn nothing(nothing: &Nothing) -> String {
    let why = &nothing.refused;
    let mut text = format!(
        "{}: {} (rule {})",
        nothing.entry.placed(),
        why.why,
        why.rule
    );
    if nothing.with_sse {
        text += "; with --shadow-stack it is one and names its frame";
    }
    let lines: Vec<String> = nothing.named_by.iter().map(usize::to_string).collect();
    match lines.as_slice() {
        [] => text,
        [line] => format!("{text}; line {line} names this frame"),
        lines => format!("{text}; lines {} name this frame", lines.join(", ")),
    }
}
