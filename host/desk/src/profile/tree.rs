//! The tree of a profile: a node for each way of calls that led to a function, with the steps made there.

use super::functions::Id;
use std::collections::HashMap;

/// A node's place among all; that of a caller is below those of what it called.
pub type Node = usize;

/// The node that stands for all.
pub const ROOT: Node = 0;

/// Levels and nodes that the tree has at most: a program that calls without end shall not fill memory.
const MOST_LEVELS: usize = 500;
const MOST_NODES: usize = 100_000;

struct Place {
    function: Option<Id>,
    parent: Node,
    level: usize,
    own: u64,
}

pub struct Tree {
    nodes: Vec<Place>,
    children: HashMap<(Node, Id), Node>,
    /// Whether something had no place in it: those steps count for the last caller that has one.
    pub cut: bool,
}

impl Tree {
    pub fn new() -> Tree {
        let root = Place {
            function: None,
            parent: ROOT,
            level: 0,
            own: 0,
        };
        Tree {
            nodes: vec![root],
            children: HashMap::new(),
            cut: false,
        }
    }

    /// The node of a function that was called from another.
    pub fn child(&mut self, parent: Node, function: Id) -> Node {
        if let Some(child) = self.children.get(&(parent, function)) {
            return *child;
        }
        let level = self.nodes[parent].level + 1;
        if level > MOST_LEVELS || self.nodes.len() > MOST_NODES {
            self.cut = true;
            return parent;
        }
        self.nodes.push(Place {
            function: Some(function),
            parent,
            level,
            own: 0,
        });
        let child = self.nodes.len() - 1;
        self.children.insert((parent, function), child);
        child
    }

    pub fn count(&mut self, node: Node) {
        self.nodes[node].own += 1;
    }

    pub fn function(&self, node: Node) -> Option<Id> {
        self.nodes[node].function
    }

    pub fn own(&self, node: Node) -> u64 {
        self.nodes[node].own
    }

    /// The steps of each node with those of what it called.
    pub fn totals(&self) -> Vec<u64> {
        let mut totals: Vec<u64> = self.nodes.iter().map(|node| node.own).collect();
        for node in (1..totals.len()).rev() {
            totals[self.nodes[node].parent] += totals[node];
        }
        totals
    }

    /// What each node called, the largest first.
    pub fn called(&self, totals: &[u64]) -> Vec<Vec<Node>> {
        let mut called = vec![Vec::new(); self.nodes.len()];
        for node in 1..self.nodes.len() {
            called[self.nodes[node].parent].push(node);
        }
        for nodes in &mut called {
            nodes.sort_by_key(|node| (u64::MAX - totals[*node], *node));
        }
        called
    }

    /// The steps of each function with those of what it called; steps that it made under itself count once.
    pub fn by_function(&self, functions: usize) -> Vec<u64> {
        let (totals, mut sums) = (self.totals(), vec![0; functions]);
        for (node, total) in totals.iter().enumerate() {
            if let (Some(function), false) = (self.function(node), self.under_itself(node)) {
                sums[function] += total;
            }
        }
        sums
    }

    fn under_itself(&self, node: Node) -> bool {
        let mut above = self.nodes[node].parent;
        while above != ROOT {
            if self.nodes[above].function == self.nodes[node].function {
                return true;
            }
            above = self.nodes[above].parent;
        }
        false
    }
}
