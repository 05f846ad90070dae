//! Functions of a profile: by their symbol, and where there is none by the address at which they were called.

use crate::symbols::{Space, Symbols};
use std::collections::HashMap;

/// A function's place among all.
pub type Id = usize;

pub struct Function {
    /// Where it begins, as the hart sees it.
    pub address: u64,
    /// Its symbol.
    pub name: Option<String>,
    /// Steps made in it.
    pub own: u64,
    /// How often the hart came into it by a call, a trap, or a jump from another.
    pub entered: u64,
}

#[derive(Default)]
pub struct Functions {
    pub all: Vec<Function>,
    by_start: HashMap<(u64, Space), Id>,
    /// What each address was found to be.
    known: HashMap<(u64, Space), Option<Id>>,
}

impl Functions {
    /// The function that a symbol gives to an address.
    pub fn named(&mut self, pc: u64, space: Space, symbols: &Symbols) -> Option<Id> {
        if let Some(known) = self.known.get(&(pc, space)) {
            return *known;
        }
        let named = symbols.name(pc, space).map(|name| {
            let symbol = name.symbol.to_string();
            self.at(pc - name.offset, space, Some(symbol))
        });
        self.known.insert((pc, space), named);
        named
    }

    /// The function that is entered at an address, by its symbol or as the code that begins there.
    pub fn entered(&mut self, pc: u64, space: Space, symbols: &Symbols) -> Id {
        let named = self.named(pc, space, symbols);
        let id = named.unwrap_or_else(|| self.at(pc, space, None));
        self.all[id].entered += 1;
        id
    }

    fn at(&mut self, address: u64, space: Space, name: Option<String>) -> Id {
        let all = &mut self.all;
        *self.by_start.entry((address, space)).or_insert_with(|| {
            all.push(Function {
                address,
                name,
                own: 0,
                entered: 0,
            });
            all.len() - 1
        })
    }

    pub fn is_named(&self, id: Id) -> bool {
        self.all[id].name.is_some()
    }

    pub fn count(&mut self, id: Id) {
        self.all[id].own += 1;
    }

    pub fn steps(&self) -> u64 {
        self.all.iter().map(|function| function.own).sum()
    }

    /// What each function is called: its symbol, with the address where another has the same, or the address alone.
    pub fn labels(&self) -> Vec<String> {
        let mut named: HashMap<&str, usize> = HashMap::new();
        for name in self
            .all
            .iter()
            .filter_map(|function| function.name.as_deref())
        {
            *named.entry(name).or_default() += 1;
        }
        let label = |function: &Function| match &function.name {
            Some(name) if named[name.as_str()] == 1 => name.clone(),
            Some(name) => format!("{name} ({:#x})", function.address),
            None => format!("{:#x}", function.address),
        };
        self.all.iter().map(label).collect()
    }
}
