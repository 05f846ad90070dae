//! The table of frames as the JSON object that docs/DESK.md describes.

use super::table::{Frame, Naming, Nothing};
use super::{Scope, Table};
use crate::facts::{hex, object, Facts};
use crate::map::{Entry, PAGE};
use crate::place::{name, Kind};
use serde_json::Value;
use sporhulma::BASE;
use std::ops::Range;

impl Table {
    pub fn json(&self) -> Value {
        object(self.members())
    }

    /// The same, and which conditions of the theorem a run does not meet.
    pub fn json_in_run(&self, scope: &Scope) -> Value {
        let unmet = list(&scope.unmet, |unmet| Value::from(unmet.as_str()));
        object(self.members().into_iter().chain([("unmet", unmet)]))
    }

    fn members(&self) -> Facts {
        let memory = range(&(BASE..BASE + self.length));
        let settings = object([
            ("menvcfg_sse", Value::from(self.sse())),
            ("senvcfg_sse", Value::from(self.shadow_stack())),
            ("mstatus_mxr", Value::from(self.mxr())),
        ]);
        vec![
            ("memory", memory),
            ("settings", settings),
            ("named", list(&self.named, frame)),
            ("unnamed", list(&self.unnamed, range)),
            (
                "outside",
                list(&self.outside, |outside| object(entry(outside))),
            ),
            ("nothing", list(&self.nothing, nothing)),
        ]
    }
}

fn list<T>(items: &[T], item: impl Fn(&T) -> Value) -> Value {
    Value::Array(items.iter().map(item).collect())
}

fn frame(frame: &Frame) -> Value {
    object([
        ("frame", hex(frame.address)),
        ("by", list(&frame.by, naming)),
    ])
}

fn range(range: &Range<u64>) -> Value {
    let bytes = range.end - range.start;
    object([
        ("first", hex(range.start)),
        ("last", hex(range.end - 1)),
        ("frames", Value::from(bytes / PAGE)),
        ("bytes", Value::from(bytes)),
    ])
}

fn entry(entry: &Entry) -> Facts {
    vec![
        ("entry", Value::from(entry.text())),
        ("line", Value::from(entry.line as u64)),
        ("virtual", hex(entry.address())),
        ("frame", hex(entry.frame())),
    ]
}

fn naming(naming: &Naming) -> Value {
    let named = |kind: &Kind| Value::from(name(*kind));
    let unusable = |(kind, lacks): &(Kind, Vec<&'static str>)| {
        object([
            ("access", named(kind)),
            ("lacks", list(lacks, |lack| Value::from(*lack))),
        ])
    };
    let own = [
        ("usable", list(&naming.usable, named)),
        ("not_usable", list(&naming.unusable, unusable)),
        ("shadow_page", Value::from(u64::from(naming.shadow))),
    ];
    object(entry(&naming.entry).into_iter().chain(own))
}

fn nothing(nothing: &Nothing) -> Value {
    let own = [
        ("rule", Value::from(nothing.refused.rule)),
        ("reason", Value::from(nothing.refused.why.as_str())),
        (
            "with_shadow_stack",
            Value::from(u64::from(nothing.with_sse)),
        ),
        (
            "named_by",
            list(&nothing.named_by, |line| Value::from(*line as u64)),
        ),
    ];
    object(entry(&nothing.entry).into_iter().chain(own))
}
