//! Networks of any size as maps, their texts, their neighbours, and networks cut in two.

use crate::lists::input;
use crate::network::{Network, Node, DEFAULT};
use crate::random::Random;
use std::collections::{BTreeMap, BTreeSet};

/// The network's text, as `(net)` writes it.
pub fn text(network: &Network) -> Vec<u8> {
    input(&network.forms())
}

/// The network of these nodes, with the routes that `next` gives for at and destination; that of a default is among them.
pub fn with_routes(nodes: BTreeMap<u64, Node>, mut next: impl FnMut(u64, u64) -> Option<u64>) -> Network {
    let destinations = || nodes.keys().copied().chain([DEFAULT]);
    let pairs = nodes.keys().flat_map(|&at| destinations().map(move |destination| (at, destination)));
    let others = pairs.filter(|(at, destination)| at != destination);
    let routes = others.filter_map(|pair| Some((pair, next(pair.0, pair.1)?))).collect();
    Network { nodes, routes }
}

/// A node of any kind with about `of_four` of every four credentials.
pub fn any_node(random: &mut Random, of_four: u64) -> Node {
    let mut credentials = || (0..64).filter(|_| random.below(4) < of_four).collect();
    let (has, needs) = (credentials(), credentials());
    Node { gateway: random.one_in(2), has, needs }
}

/// A network of any size, from none to all of its nodes, credentials, exact routes and defaults.
pub fn any_network(random: &mut Random) -> Network {
    let mut numbers: Vec<u64> = (1..=32).collect();
    random.shuffle(&mut numbers);
    numbers.truncate(random.pick(&[0, 1, 2, 3, 5, 8, 13, 21, 31, 32]));
    // of every four
    let (credentials, routes, defaults) = (random.below(5), random.below(5), random.below(5));
    let nodes = numbers.iter().map(|&number| (number, any_node(random, credentials))).collect();
    with_routes(nodes, |at, destination| {
        let others: Vec<u64> = numbers.iter().copied().filter(|&node| node != at).collect();
        let of_four = if destination == DEFAULT { defaults } else { routes };
        (random.below(4) < of_four && !others.is_empty()).then(|| random.pick(&others))
    })
}

/// Nodes 2, 9 and 31, with every exact route and default.
pub fn three_nodes(random: &mut Random) -> Network {
    let nodes = [2, 9, 31].map(|number| (number, any_node(random, 2)));
    let default = |at: u64| if at == 9 { 31 } else { 9 };
    let next = |at, destination| if destination == DEFAULT { default(at) } else { destination };
    with_routes(nodes.into(), |at, destination| Some(next(at, destination)))
}

/// The network whose text is the longest: every credential, every route and default, and no next hop of one digit.
pub fn fullest() -> Network {
    let all: BTreeSet<u64> = (0..64).collect();
    let node = |number| (number, Node { gateway: number % 2 == 0, has: all.clone(), needs: all.clone() });
    with_routes((1..=32).map(node).collect(), |at, destination| {
        let others: Vec<u64> = (10..=32).filter(|&node| node != at).collect();
        Some(others[destination as usize % others.len()])
    })
}

/// Two networks with all nodes of the fullest one and, between them, all of its routes.
pub fn fullest_in_halves() -> [Network; 2] {
    [0, 1].map(|left_out| {
        let mut half = fullest();
        half.routes.retain(|(at, destination), _| (at + destination) % 3 != left_out);
        half
    })
}

/// The network, and each that differs from it in one credential, one kind or one next hop, of a default too.
pub fn neighbours(network: &Network) -> Vec<Network> {
    let mut all = vec![network.clone()];
    let mut add = |change: &dyn Fn(&mut Network)| {
        let mut other = network.clone();
        change(&mut other);
        all.push(other);
    };
    for number in network.nodes.keys() {
        add(&|other| node_of(other, number).gateway ^= true);
        for credential in 0..64 {
            add(&|other| toggle(&mut node_of(other, number).has, credential));
            add(&|other| toggle(&mut node_of(other, number).needs, credential));
        }
    }
    for route in network.routes.keys() {
        for another in other_next_hops(network, route) {
            add(&|other| other.routes.extend([(*route, another)]));
        }
    }
    all
}

fn node_of<'a>(network: &'a mut Network, number: &u64) -> &'a mut Node {
    network.nodes.get_mut(number).expect("the node is there")
}

fn toggle(set: &mut BTreeSet<u64>, credential: u64) {
    if !set.remove(&credential) {
        set.insert(credential);
    }
}

/// The next hops that a route of the network could have and has not.
fn other_next_hops(network: &Network, route: &(u64, u64)) -> Vec<u64> {
    let next = network.routes[route];
    network.nodes.keys().copied().filter(|&node| node != route.0 && node != next).collect()
}

/// A network cut in two: each node and each route is in one half or in both, a route only with its nodes.
pub struct Cut {
    pub whole: Network,
    pub halves: [Network; 2],
}

impl Cut {
    /// Cuts the network anywhere, sometimes so that a half is empty. Routes whose nodes are in no half together are not in the
    /// whole.
    pub fn new(random: &mut Random, network: Network) -> Self {
        // of every four nodes and routes, how many are in both halves
        let (nodes, routes) = (random.below(5), random.below(5));
        let sides = random.pick(&[&[0, 1][..], &[0, 1], &[0, 1], &[0, 1], &[0], &[1]]);
        let mut cut = Cut { whole: network, halves: Default::default() };
        for (&number, node) in &cut.whole.nodes {
            for side in some_of(random, sides, nodes) {
                cut.halves[side].nodes.insert(number, node.clone());
            }
        }
        cut.whole.routes.retain(|&route, &mut next| {
            let fits =
                |half: &Network| [route.0, route.1, next].iter().all(|&node| node == DEFAULT || half.knows(node));
            let sides: Vec<usize> = (0..2).filter(|&side| fits(&cut.halves[side])).collect();
            for side in some_of(random, &sides, routes) {
                cut.halves[side].routes.insert(route, next);
            }
            !sides.is_empty()
        });
        cut
    }

    /// The nodes that are in both halves.
    pub fn shared_nodes(&self) -> Vec<u64> {
        let [first, second] = &self.halves;
        first.nodes.keys().copied().filter(|&node| second.knows(node)).collect()
    }

    /// The routes, or the defaults, that are in both halves, by at and destination.
    pub fn shared_routes(&self, defaults: bool) -> Vec<(u64, u64)> {
        let [first, second] = &self.halves;
        let shared = first.routes.keys().copied().filter(|route| second.routes.contains_key(route));
        shared.filter(|route| (route.1 == DEFAULT) == defaults).collect()
    }

    /// Changes a part of the second half that the first has too. What is changed, or none where they share nothing to change.
    pub fn put_clash(&mut self, random: &mut Random) -> Option<&'static str> {
        // fewer halves share routes than nodes
        let mut kinds = [["next hop", "default"].repeat(3), vec!["kind", "has", "needs"]].concat();
        random.shuffle(&mut kinds);
        kinds.into_iter().find(|kind| match *kind {
            "next hop" => self.change_route(random, false),
            "default" => self.change_route(random, true),
            _ => self.change_node(random, kind),
        })
    }

    /// Changes the next hop of a shared route, or default; whether there is one.
    fn change_route(&mut self, random: &mut Random, default: bool) -> bool {
        let mut routes = self.shared_routes(default);
        let second = &mut self.halves[1];
        routes.retain(|route| !other_next_hops(second, route).is_empty());
        let changed = any_of(random, &routes).map(|route| (route, random.pick(&other_next_hops(second, &route))));
        second.routes.extend(changed);
        changed.is_some()
    }

    /// Changes the kind of a shared node, or a credential that it has or needs; whether there is one.
    fn change_node(&mut self, random: &mut Random, what: &str) -> bool {
        let Some(number) = any_of(random, &self.shared_nodes()) else { return false };
        let node = node_of(&mut self.halves[1], &number);
        match what {
            "kind" => node.gateway ^= true,
            "has" => toggle(&mut node.has, random.below(64)),
            _ => toggle(&mut node.needs, random.below(64)),
        }
        true
    }
}

fn any_of<T: Copy>(random: &mut Random, from: &[T]) -> Option<T> {
    (!from.is_empty()).then(|| random.pick(from))
}

/// All of these sides, `of_four` of four times, else any one of them.
fn some_of(random: &mut Random, sides: &[usize], of_four: u64) -> Vec<usize> {
    if random.below(4) < of_four {
        sides.to_vec()
    } else {
        any_of(random, sides).into_iter().collect()
    }
}
