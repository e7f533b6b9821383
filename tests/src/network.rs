//! The network: nodes with their credentials, and routes; and the forms that give them.

use std::collections::{BTreeMap, BTreeSet};

#[derive(Clone, PartialEq)]
pub struct Node {
    pub gateway: bool,
    pub has: BTreeSet<u64>,
    pub needs: BTreeSet<u64>,
}

impl Node {
    /// The form that gives this node, by this number.
    pub fn form(&self, number: u64) -> String {
        let list = |set: &BTreeSet<u64>| set.iter().map(|credential| format!(" {credential}")).collect::<String>();
        let kind = if self.gateway { "gate" } else { "host" };
        format!("(node {number} {kind} (has{}) (needs{}))", list(&self.has), list(&self.needs))
    }
}

/// The destination that stands for every one without a route of its own: a route of it is its node's default (#104).
pub const DEFAULT: u64 = 0;

pub fn route_form(at: u64, destination: u64, next: u64) -> String {
    format!("(route {at} {destination} {next})")
}

/// What the look-up of a route says, with the next node.
#[derive(Clone, Copy, Debug, PartialEq)]
pub enum LookUp {
    Exact(u64),
    Default(u64),
    None,
}

#[derive(Clone, Default)]
pub struct Network {
    pub nodes: BTreeMap<u64, Node>,
    /// (at, destination) to next; a node's default comes first among its routes, by its destination
    pub routes: BTreeMap<(u64, u64), u64>,
}

impl Network {
    pub fn knows(&self, node: u64) -> bool {
        self.nodes.contains_key(&node)
    }

    pub fn is_gateway(&self, node: u64) -> bool {
        self.nodes[&node].gateway
    }

    /// The route at a node to another: its own before the node's default.
    pub fn look_up(&self, at: u64, to: u64) -> LookUp {
        match (self.routes.get(&(at, to)), self.default_of(at)) {
            (Some(&next), _) => LookUp::Exact(next),
            (None, Some(next)) => LookUp::Default(next),
            (None, None) => LookUp::None,
        }
    }

    /// The next node of the node's default.
    pub fn default_of(&self, at: u64) -> Option<u64> {
        self.routes.get(&(at, DEFAULT)).copied()
    }

    /// The forms that give this network: nodes rising, then routes by at, then by destination.
    pub fn forms(&self) -> Vec<String> {
        let nodes = self.nodes.iter().map(|(&number, node)| node.form(number));
        let routes = self.routes.iter().map(|(&(at, destination), &next)| route_form(at, destination, next));
        nodes.chain(routes).collect()
    }

    /// Whether `peer` has all that `node` needs.
    pub fn accepts(&self, node: u64, peer: u64) -> bool {
        self.nodes[&node].needs.is_subset(&self.nodes[&peer].has)
    }
}
