//! The networks of the benchmark, as the node and route calls that give them.

use simulator_tests::network::{route_form, Node};
use simulator_tests::topology::next_in_tree;
use std::collections::BTreeSet;

const GATEWAYS: u64 = 8;

/// Two hosts and this many gateways between them, numbered along the chain from 1. Without gateways it is the network
/// of document 01's listing B.
pub fn chain(gateways: u64) -> Vec<String> {
    let last = gateways + 2;
    let kinds: Vec<bool> = (1..=last).map(|node| node != 1 && node != last).collect();
    let parents: Vec<usize> = (0..kinds.len()).map(|place| place.saturating_sub(1)).collect();
    tree(&kinds, &parents)
}

/// Eight gateways in a chain, nodes 1 to 8, with one host at each; see `host_at`.
pub fn eight_gateways() -> Vec<String> {
    let kinds: Vec<bool> = (0..2 * GATEWAYS).map(|place| place < GATEWAYS).collect();
    let gateways = GATEWAYS as usize;
    let parent = |place: usize| if place < gateways { place.saturating_sub(1) } else { place - gateways };
    tree(&kinds, &(0..kinds.len()).map(parent).collect::<Vec<_>>())
}

/// The host that hangs at this gateway of `eight_gateways`.
pub fn host_at(gateway: u64) -> u64 {
    GATEWAYS + gateway
}

/// The ends of eight sessions on `eight_gateways`. A session begins at most eight establishments, one for each gateway
/// and one for the server, so that seven gateways are the most that a set-up crosses. Four sessions here cross seven
/// and four cross four, either way along the chain; each gateway serves several of them.
pub fn eight_ends() -> [(u64, u64); 8] {
    let gateways = [(1, 7), (2, 8), (8, 2), (7, 1), (1, 4), (5, 8), (3, 6), (6, 3)];
    gateways.map(|(client, server)| (host_at(client), host_at(server)))
}

/// Nodes without credentials, numbered by their places from 1, and the route of each to each along the tree that the
/// places' parents give.
fn tree(gateways: &[bool], parents: &[usize]) -> Vec<String> {
    let places = || 0..gateways.len();
    let bare = |gateway| Node { gateway, has: BTreeSet::new(), needs: BTreeSet::new() };
    let nodes = gateways.iter().zip(1..).map(|(&gateway, number)| bare(gateway).form(number));
    let pairs = places().flat_map(|at| places().map(move |destination| (at, destination)));
    let routes = pairs.filter(|(at, destination)| at != destination).map(|(at, destination)| {
        let number = |place: usize| place as u64 + 1;
        route_form(number(at), number(destination), number(next_in_tree(parents, at, destination)))
    });
    nodes.chain(routes).collect()
}
