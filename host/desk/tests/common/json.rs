//! A reader of the JSON that the desk writes, for tests.

use std::collections::BTreeMap;

/// A JSON value as far as the desk writes them.
#[derive(Debug, PartialEq)]
pub enum Value {
    Null,
    Number(u64),
    Text(String),
    List(Vec<Value>),
    Object(BTreeMap<String, Value>),
}

impl Value {
    pub fn at(&self, key: &str) -> &Value {
        match self {
            Value::Object(members) => members.get(key).unwrap_or_else(|| panic!("no {key}")),
            other => panic!("{key} of {other:?}"),
        }
    }

    pub fn text(&self) -> &str {
        match self {
            Value::Text(text) => text,
            other => panic!("no text: {other:?}"),
        }
    }

    pub fn number(&self) -> u64 {
        match self {
            Value::Number(number) => *number,
            other => panic!("no number: {other:?}"),
        }
    }

    /// A number that is given as text in hex.
    pub fn hex(&self) -> u64 {
        let digits = self.text().strip_prefix("0x").expect("0x and digits");
        u64::from_str_radix(digits, 16).expect("hex digits")
    }

    pub fn list(&self) -> &[Value] {
        match self {
            Value::List(items) => items,
            other => panic!("no list: {other:?}"),
        }
    }

    /// The texts of a list.
    pub fn texts(&self) -> Vec<&str> {
        self.list().iter().map(Value::text).collect()
    }
}

/// A strict reader: anything that is not JSON makes it panic.
pub struct Reader<'a> {
    rest: &'a str,
}

impl Reader<'_> {
    pub fn whole(text: &str) -> Value {
        let mut reader = Reader { rest: text };
        let value = reader.value();
        assert_eq!(reader.rest.trim(), "", "something follows the object");
        value
    }

    fn take(&mut self, token: &str) -> bool {
        self.rest = self.rest.trim_start();
        let rest = self.rest.strip_prefix(token);
        self.rest = rest.unwrap_or(self.rest);
        rest.is_some()
    }

    fn value(&mut self) -> Value {
        if self.take("null") {
            Value::Null
        } else if self.take("{") {
            let member = |reader: &mut Self| {
                let key = reader.string();
                assert!(reader.take(":"));
                (key, reader.value())
            };
            let members = self.items("}", member);
            let count = members.len();
            let members: BTreeMap<_, _> = members.into_iter().collect();
            assert_eq!(members.len(), count, "a member twice");
            Value::Object(members)
        } else if self.take("[") {
            Value::List(self.items("]", Self::value))
        } else if self.rest.starts_with('"') {
            Value::Text(self.string())
        } else {
            let end = self
                .rest
                .find(|c: char| !c.is_ascii_digit())
                .unwrap_or(self.rest.len());
            let (digits, rest) = self.rest.split_at(end);
            self.rest = rest;
            assert!(digits == "0" || !digits.starts_with('0'), "{digits}");
            Value::Number(digits.parse().unwrap())
        }
    }

    fn items<T>(&mut self, close: &str, item: impl Fn(&mut Self) -> T) -> Vec<T> {
        let mut items = Vec::new();
        if self.take(close) {
            return items;
        }
        loop {
            items.push(item(self));
            if self.take(close) {
                return items;
            }
            assert!(self.take(","), "no comma at {}", self.rest);
        }
    }

    fn string(&mut self) -> String {
        assert!(self.take("\""), "no string at {}", self.rest);
        let mut text = String::new();
        let mut letters = self.rest.char_indices();
        loop {
            match letters.next().expect("the string ends") {
                (at, '"') => {
                    self.rest = &self.rest[at + 1..];
                    return text;
                }
                (_, '\\') => text.push(match letters.next().unwrap().1 {
                    'u' => {
                        let digits: String = letters.by_ref().take(4).map(|pair| pair.1).collect();
                        char::from_u32(u32::from_str_radix(&digits, 16).unwrap()).unwrap()
                    }
                    escaped if "\"\\/".contains(escaped) => escaped,
                    other => panic!("\\{other}"),
                }),
                (_, letter) => {
                    assert!(letter >= ' ', "a control letter in a string");
                    text.push(letter);
                }
            }
        }
    }
}
