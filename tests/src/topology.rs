//! Random networks, as the node and route calls that give them.

use crate::form::NODES;
use crate::network::{route_form, Node, DEFAULT};
use crate::random::Random;
use std::collections::{BTreeMap, BTreeSet};

/// At, destination and next.
pub type Route = (u64, u64, u64);

pub struct Topology {
    pub nodes: Vec<u64>,
    pub hosts: Vec<u64>,
    /// two hosts that lie far apart
    pub ends: (u64, u64),
    pub calls: Vec<String>,
}

#[derive(Clone, Copy, PartialEq)]
enum Shape {
    /// gateways between two hosts
    Chain,
    /// more gateways than a session may begin establishments, for loss 6
    LongChain,
    /// hosts and gateways between two hosts
    MixedChain,
    Tree,
    /// every route at random, so that some loop
    Wild,
}

const SHAPES: [Shape; 12] = [
    Shape::Chain,
    Shape::Chain,
    Shape::Chain,
    Shape::Chain,
    Shape::Chain,
    Shape::LongChain,
    Shape::LongChain,
    Shape::MixedChain,
    Shape::MixedChain,
    Shape::Tree,
    Shape::Tree,
    Shape::Wild,
];

impl Topology {
    pub fn new(random: &mut Random) -> Self {
        let shape = random.pick(&SHAPES);
        let size = match shape {
            Shape::Chain => 2 + random.index(5),
            Shape::LongChain => 11 + random.index(3),
            Shape::MixedChain | Shape::Tree => 3 + random.index(6),
            Shape::Wild => 2 + random.index(5),
        };
        let nodes = some_nodes(random, size);
        let gateways = gateways(random, shape, size);
        let mut calls = node_calls(random, &nodes, &gateways);
        let exact = exact_routes(random, shape, &nodes);
        calls.extend(forms(&with_defaults(random, &nodes, exact)));
        if random.one_in(10) {
            // some routes come before their nodes and are refused
            random.shuffle(&mut calls);
        }
        Self::of(nodes, &gateways, calls)
    }

    /// Up to eight gateways and up to 32 nodes in all; the way to each destination goes through all of the others, in an
    /// order of its own.
    pub fn detours(random: &mut Random) -> Self {
        let inner_gateways = random.index(9);
        let size = if random.one_in(2) { 32 } else { inner_gateways + 2 + random.index(31 - inner_gateways) };
        let nodes = some_nodes(random, size);
        let gateways: Vec<bool> = (0..size).map(|place| (1..=inner_gateways).contains(&place)).collect();
        let mut calls = node_calls(random, &nodes, &gateways);
        // to one destination in so many the way ends early, or leads into a circle
        let fault = random.pick(&[1_000_000, 1_000_000, 20, 5]);
        let mut exact = Vec::new();
        for &destination in &nodes {
            let path = detour(random, &nodes, destination, fault);
            exact.extend(routes_along(&path, destination));
        }
        calls.extend(forms(&with_defaults(random, &nodes, exact)));
        Self::of(nodes, &gateways, calls)
    }

    /// A line of hosts and up to seven gateways, with hosts at both ends. The last node lies beyond it: the routes for that one go past
    /// all the gateways and back, so that all but the first few are in a circle.
    pub fn circle(random: &mut Random) -> Self {
        let in_circle = random.pick(&[0, 1, 2, 2, 3, 3, 4, 5, 6, 7]);
        let before = if in_circle == 0 { 0 } else { random.pick(&[0, 0, 0, 1, 2]).min(7 - in_circle) };
        let hosts = random.pick(&[0, 0, 1, 3, 8, 20]);
        let mut inner: Vec<bool> = (0..before + in_circle + hosts).map(|place| place < before + in_circle).collect();
        random.shuffle(&mut inner);
        let gateways = [vec![false], inner, vec![false; 2]].concat();
        let nodes = some_nodes(random, gateways.len());
        let mut calls = node_calls(random, &nodes, &gateways);
        let (server, line) = nodes.split_last().expect("there are hosts");
        let mut routes = line_routes(line);
        if random.one_in(5) {
            turn_back(random, line, &mut routes);
        }
        routes.extend(routes_along(&into_a_circle(random, line, &gateways, before), *server));
        if random.one_in(3) {
            routes = with_uplinks(random, routes);
        }
        calls.extend(forms(&routes));
        Self::of(nodes, &gateways, calls)
    }

    /// Up to four gateways in a row, then a host, between two hosts. What goes bare from the last node to the first goes as they stand,
    /// or straight there, or nowhere, or to the host before the last and back.
    pub fn other_way_back(random: &mut Random) -> Self {
        let size = 4 + random.index(4);
        let nodes = some_nodes(random, size);
        let gateways: Vec<bool> = (0..size).map(|place| (1..size - 2).contains(&place)).collect();
        let mut calls = node_calls(random, &nodes, &gateways);
        let (first, before, last) = (nodes[0], nodes[size - 2], nodes[size - 1]);
        let as_they_stand = vec![(last, first, before), (before, first, nodes[size - 3])];
        let circle = vec![(last, first, before), (before, first, last)];
        let ways_back = [as_they_stand, vec![(last, first, first)], vec![], circle];
        let mut routes = line_routes(&nodes);
        routes.retain(|&(at, destination, _)| destination != first || at != last && at != before);
        routes.extend(&ways_back[random.index(4)]);
        if random.one_in(10) {
            // the Rep for the first gateway is lost
            routes.retain(|&(at, destination, _)| (at, destination) != (first, nodes[1]));
        }
        calls.extend(forms(&routes));
        Self::of(nodes, &gateways, calls)
    }

    fn of(nodes: Vec<u64>, gateways: &[bool], calls: Vec<String>) -> Self {
        let size = nodes.len();
        let hosts = (0..size).filter(|&place| !gateways[place]).map(|place| nodes[place]).collect();
        Topology { ends: (nodes[0], nodes[size - 1]), nodes, hosts, calls }
    }
}

/// So many nodes, in any order.
fn some_nodes(random: &mut Random, size: usize) -> Vec<u64> {
    let mut nodes: Vec<u64> = (1..=32).collect();
    random.shuffle(&mut nodes);
    nodes.truncate(size);
    nodes
}

/// A way to the destination through all the other nodes, or its beginning. That to the last node begins at the first, so that
/// discovery between these ends goes all of it.
fn detour(random: &mut Random, nodes: &[u64], destination: u64, fault: u64) -> Vec<u64> {
    let mut path: Vec<u64> = nodes.iter().copied().filter(|&node| node != destination).collect();
    let kept = usize::from(nodes.last() == Some(&destination));
    random.shuffle(&mut path[kept..]);
    if !random.one_in(fault) {
        path.push(destination);
        return path;
    }
    path.truncate(1 + random.index(path.len()));
    if random.one_in(2) && path.len() > 1 {
        let earlier = random.pick(&path[..path.len() - 1]);
        path.push(earlier);
    }
    path
}

/// The routes to the destination from each node of the path to the next one.
pub fn routes_along(path: &[u64], destination: u64) -> Vec<Route> {
    path.windows(2).map(|pair| (pair[0], destination, pair[1])).collect()
}

/// All routes between the nodes of a line.
pub fn line_routes(line: &[u64]) -> Vec<Route> {
    let to = |(place, &destination): (usize, &u64)| {
        let beyond: Vec<u64> = line[place..].iter().rev().copied().collect();
        [routes_along(&line[..=place], destination), routes_along(&beyond, destination)].concat()
    };
    line.iter().enumerate().flat_map(to).collect()
}

/// For one destination of the line, two neighbours send to each other, mostly those before it: what is for it goes round between them,
/// and so does what is in a tunnel to it.
fn turn_back(random: &mut Random, line: &[u64], routes: &mut [Route]) {
    let place = random.index(line.len());
    let first = if place < 2 { place + 1 } else { place - 2 };
    let Some(&[one, other]) = line.get(first..first + 2) else { return };
    for (at, destination, next) in routes {
        match *at {
            _ if *destination != line[place] => {}
            at if at == one => *next = other,
            at if at == other => *next = one,
            _ => {}
        }
    }
}

/// A path from the first node of the line that goes past all gateways, and back behind so many of them.
fn into_a_circle(random: &mut Random, line: &[u64], gateways: &[bool], before: usize) -> Vec<u64> {
    let places: Vec<usize> = (0..line.len()).filter(|&place| gateways[place]).collect();
    let lowest = if before == 0 { 0 } else { places[before - 1] + 1 };
    let highest = places.get(before).copied().unwrap_or(line.len() - 2);
    let back = lowest + random.index(highest - lowest + 1);
    let least = places.last().map_or(back + 1, |&last| last.max(back + 1));
    let turn = least + random.index(line.len() - least);
    [&line[..=turn], &[line[back]]].concat()
}

/// The routes of a way to the destination through all the other nodes, these first.
pub fn longest_way(first: &[u64], destination: u64) -> Vec<Route> {
    let others = NODES.filter(|node| !first.contains(node) && *node != destination);
    let path: Vec<u64> = first.iter().copied().chain(others).chain([destination]).collect();
    routes_along(&path, destination)
}

/// Client 1, gateways 2 to 8, server 9; hosts 10 to 32 lie between the last gateway and the server. The way to each tunnel point goes
/// through all the nodes: 31 hops from the one behind it, and 30 from the one before it, but 24 to the server.
pub fn longest_chain() -> Vec<Route> {
    let to_client = longest_way(&[2], 1);
    let to_gateways = (2..=8).flat_map(|gateway| longest_way(&[gateway + 1, gateway - 1], gateway));
    let to_server = longest_way(&[1, 2, 3, 4, 5, 6, 7, 8], 9);
    to_client.into_iter().chain(to_gateways).chain(to_server).collect()
}

pub fn forms(routes: &[Route]) -> Vec<String> {
    routes.iter().map(|&(at, destination, next)| route_form(at, destination, next)).collect()
}

/// The exact routes as they are, or with defaults for some of them, or beside them.
fn with_defaults(random: &mut Random, nodes: &[u64], exact: Vec<Route>) -> Vec<Route> {
    let mut routes = match random.below(8) {
        0..=2 => return exact,
        3..=5 => with_uplinks(random, exact),
        _ => with_stray_defaults(random, nodes, exact),
    };
    if random.one_in(2) {
        // defaults come before exact routes of their node, and between them
        random.shuffle(&mut routes);
    }
    routes
}

/// At most of the nodes, one next hop of its routes becomes its default, and only a few of those routes stay: every way
/// that there was stays.
pub fn with_uplinks(random: &mut Random, exact: Vec<Route>) -> Vec<Route> {
    let mut next_hops: BTreeMap<u64, Vec<u64>> = BTreeMap::new();
    for &(at, _, next) in &exact {
        next_hops.entry(at).or_default().push(next);
    }
    next_hops.retain(|_, _| !random.one_in(5));
    let uplinks: BTreeMap<u64, u64> = next_hops.iter().map(|(&at, next)| (at, random.pick(next))).collect();
    let kept = exact.into_iter().filter(|(at, _, next)| uplinks.get(at) != Some(next) || random.one_in(5));
    kept.chain(uplinks.iter().map(|(&at, &next)| (at, DEFAULT, next))).collect()
}

/// Defaults that lead anywhere, so that some make circles; all, half or none of the exact routes stay.
fn with_stray_defaults(random: &mut Random, nodes: &[u64], mut exact: Vec<Route>) -> Vec<Route> {
    let of_two = random.pick(&[2, 1, 0]);
    exact.retain(|_| random.below(2) < of_two);
    // one node in so many has none
    let without = random.pick(&[3, 10]);
    let at: Vec<u64> = nodes.iter().copied().filter(|_| !random.one_in(without)).collect();
    exact.into_iter().chain(at.into_iter().map(|at| (at, DEFAULT, random.pick(nodes)))).collect()
}

/// Whether each place is a gateway; the first and the last are hosts.
fn gateways(random: &mut Random, shape: Shape, size: usize) -> Vec<bool> {
    let inner = |random: &mut Random| match shape {
        Shape::Chain | Shape::LongChain => true,
        Shape::MixedChain => !random.one_in(3),
        Shape::Tree | Shape::Wild => random.one_in(2),
    };
    (0..size).map(|place| place != 0 && place != size - 1 && inner(random)).collect()
}

fn node_calls(random: &mut Random, nodes: &[u64], gateways: &[bool]) -> Vec<String> {
    let pool: Vec<u64> = (0..4).map(|_| random.below(64)).collect();
    let policy = random.below(4);
    let mut subset = |one_in: u64| pool.iter().copied().filter(|_| random.one_in(one_in)).collect::<BTreeSet<_>>();
    let call = |(&node, &gateway)| {
        let (has, needs) = match policy {
            0 => (subset(2), subset(6)),
            1 => (subset(1), subset(2)),
            _ => Default::default(),
        };
        Node { gateway, has, needs }.form(node)
    };
    nodes.iter().zip(gateways).map(call).collect()
}

fn exact_routes(random: &mut Random, shape: Shape, nodes: &[u64]) -> Vec<Route> {
    let parents = parents(random, shape, nodes.len());
    // one route in so many is missing or leads anywhere
    let fault = random.pick(&[1_000_000, 1_000_000, 50, 10]);
    let mut routes = Vec::new();
    for at in 0..nodes.len() {
        for destination in (0..nodes.len()).filter(|&destination| destination != at) {
            let mut next = next_in_tree(&parents, at, destination);
            let astray = shape == Shape::Wild || random.one_in(fault);
            if astray && random.one_in(4) {
                continue;
            }
            if astray {
                next = random.index(nodes.len());
            }
            routes.push((nodes[at], nodes[destination], nodes[next]));
        }
    }
    routes
}

/// The place above each place but the first, in a tree.
fn parents(random: &mut Random, shape: Shape, size: usize) -> Vec<usize> {
    let parent = |place: usize| match shape {
        _ if place == 0 => 0,
        Shape::Tree => random.index(place),
        _ => place - 1,
    };
    (0..size).map(parent).collect()
}

/// The place after `at` on the way to `destination`.
pub fn next_in_tree(parents: &[usize], at: usize, destination: usize) -> usize {
    let mut place = destination;
    while place != 0 {
        if parents[place] == at {
            return place;
        }
        place = parents[place];
    }
    parents[at]
}
