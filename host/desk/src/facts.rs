//! Values of the JSON that the desk writes for programs.

use serde_json::{Map, Value};

/// Members of an object, in the order in which they are written.
pub type Facts = Vec<(&'static str, Value)>;

/// A 64-bit number: as a string in hex, since many readers keep only 53 bits of a number.
pub fn hex(number: u64) -> Value {
    Value::from(format!("{number:#018x}"))
}

pub fn object(members: impl IntoIterator<Item = (impl Into<String>, Value)>) -> Value {
    let member = |(key, value): (_, Value)| (Into::into(key), value);
    Value::Object(members.into_iter().map(member).collect::<Map<_, _>>())
}

/// The text of an object, a member a line.
pub fn text(value: &Value) -> String {
    format!("{value:#}\n")
}
