//! A profile as a table, and as an object.

use super::functions::Id;
use super::Counts;
use crate::facts::{hex, object};
use serde_json::Value;

/// The most lines of the table; the object has all.
const LINES: usize = 30;

/// A function's row.
struct Row {
    id: Id,
    own: u64,
    /// With what it called.
    all: u64,
}

impl Counts {
    /// Functions in which steps were made or that called others, those with the most steps of their own first.
    fn rows(&self) -> Vec<Row> {
        let functions = &self.functions.all;
        let sums = self.tree.by_function(functions.len());
        let mut rows: Vec<Row> = functions
            .iter()
            .zip(sums)
            .enumerate()
            // Where the tree was cut, a function may have no place in it.
            .map(|(id, (function, all))| Row {
                id,
                own: function.own,
                all: all.max(function.own),
            })
            .filter(|row| row.all > 0)
            .collect();
        rows.sort_by_key(|row| (u64::MAX - row.own, u64::MAX - row.all, row.id));
        rows
    }

    pub fn text(&self) -> String {
        let (rows, labels) = (self.rows(), self.functions.labels());
        let mut text = format!(
            "Where the steps were made: {}, each one counted ('all': with what it called)\n",
            self.headline()
        );
        text += "         own                 all              entered  function\n";
        for row in rows.iter().take(LINES) {
            let (own, all) = (percent(row.own, self.steps), percent(row.all, self.steps));
            let entered = self.functions.all[row.id].entered;
            let label = &labels[row.id];
            let (own_steps, all_steps) = (row.own, row.all);
            text += &format!(
                "{own_steps:>12} {own:>6}  {all_steps:>12} {all:>6}  {entered:>11}  {label}\n"
            );
        }
        if let Some(more @ [_, ..]) = rows.get(LINES..) {
            let own: u64 = more.iter().map(|row| row.own).sum();
            let share = percent(own, self.steps);
            text += &format!(
                "{own:>12} {share:>6}  in others ({}); --json lists all\n",
                functions(more.len())
            );
        }
        if self.tree.cut {
            text += CUT;
            text += "\n";
        }
        text
    }

    /// So many steps in so many functions.
    pub fn headline(&self) -> String {
        let steps = match self.steps {
            1 => "1 step".into(),
            steps => format!("{steps} steps"),
        };
        let used = self.functions.all.iter();
        let used = used.filter(|function| function.own > 0).count();
        format!("{steps} in {}", functions(used))
    }

    pub fn json(&self) -> Value {
        let row = |row: &Row| {
            let function = &self.functions.all[row.id];
            let name = function.name.as_deref().map_or(Value::Null, Value::from);
            object([
                ("function", name),
                ("address", hex(function.address)),
                ("own", Value::from(row.own)),
                ("all", Value::from(row.all)),
                ("entered", Value::from(function.entered)),
            ])
        };
        let rows: Vec<Value> = self.rows().iter().map(row).collect();
        let cut = match self.tree.cut {
            true => Value::from(CUT),
            false => Value::Null,
        };
        object([
            ("steps", Value::from(self.steps)),
            ("functions", Value::from(rows)),
            ("cut", cut),
        ])
    }
}

/// What is said where not all calls had a place in the tree.
pub const CUT: &str =
    "The calls were too deep or too many to keep all: beyond 500 levels or 100000 ways they count for the last caller kept.";

fn functions(count: usize) -> String {
    match count {
        1 => "1 function".into(),
        _ => format!("{count} functions"),
    }
}

pub fn percent(part: u64, whole: u64) -> String {
    format!("{:.1}%", part as f64 * 100.0 / whole.max(1) as f64)
}
