//! Listings written by hand: calls, each with its answer.

use crate::topology::{forms, line_routes, routes_along, Route};
use std::collections::BTreeMap;
use std::ops::RangeInclusive;

/// The lines of an answer have newlines between.
pub type Listing = Vec<(String, String)>;

pub fn exchanges(lines: &[(&str, &str)]) -> Listing {
    lines.iter().map(|(call, answer)| (call.to_string(), answer.to_string())).collect()
}

/// Calls that are all accepted.
pub fn accepted(calls: impl IntoIterator<Item = impl Into<String>>) -> Listing {
    calls.into_iter().map(|call| (call.into(), "(ok)".to_string())).collect()
}

pub fn host(node: u64) -> String {
    format!("(node {node} host (has) (needs))")
}

pub fn gate(node: u64) -> String {
    format!("(node {node} gate (has) (needs))")
}

/// Nodes 1 to `last` in a row, hosts at both ends and gateways between, with every route.
pub fn chain(last: u64) -> Listing {
    let nodes = (1..=last).map(|node| if node == 1 || node == last { host(node) } else { gate(node) });
    let routes = line_routes(&(1..=last).collect::<Vec<_>>());
    accepted(nodes.chain(forms(&routes)))
}

/// Gateways from 2 on, between host 1 and the server, with so many hosts on the way from each to the next. What is for the server
/// goes round the gateways, and never gets there.
pub fn circle(gateways: u64, hosts: u64) -> Listing {
    let (last, server) = (gateways + 1, gateways + 2);
    let nodes = [host(1)].into_iter().chain((2..=last).map(gate)).chain((server..=server + last * hosts).map(host));
    let given = (1..=last).flat_map(|at| {
        let next = if at < last { at + 1 } else { 2 };
        let between = server + (at - 1) * hosts + 1..=server + at * hosts;
        let way: Vec<u64> = [at].into_iter().chain(between).chain([next]).collect();
        let back: Vec<u64> = way.iter().rev().copied().collect();
        [routes_along(&way, next), routes_along(&back, at), routes_along(&way, server)].concat()
    });
    // two gateways have two ways between them: their tunnels go by the first
    let mut routes = BTreeMap::new();
    for (at, destination, next) in given {
        routes.entry((at, destination)).or_insert(next);
    }
    let routes: Vec<Route> = routes.into_iter().map(|((at, destination), next)| (at, destination, next)).collect();
    accepted(nodes.chain(forms(&routes)))
}

/// An open of a session that never wrote an item.
pub fn open(session: u64, client: u64, server: u64) -> Listing {
    exchanges(&[(&format!("(open {session} {client} {server})"), "(made 1)")])
}

/// Session 1 on this network, from 1 to the server, with its first establishments between neighbours.
pub fn begun(network: Listing, server: u64, establishments: u64) -> Listing {
    let set_up = (1..=establishments).flat_map(|nth| establishment(1, nth, 18)).collect();
    [network, open(1, 1, server), set_up].concat()
}

/// Data of session 1 whose tag is its number, sent from a side. It comes up at the neighbour as the third number behind it.
pub fn data(side: u64, number: u64) -> Listing {
    let send = exchanges(&[(&format!("(send 1 {side} {number})"), &format!("(made {number})"))]);
    [send, moves(1, number..=number + 2)].concat()
}

/// Steps of one session.
pub fn steps(session: u64, steps: &[(u64, impl AsRef<str>)]) -> Listing {
    steps.iter().map(|(item, answer)| (format!("(step {session} {item})"), answer.as_ref().to_string())).collect()
}

/// Steps of items that each make the next number.
pub fn moves(session: u64, items: RangeInclusive<u64>) -> Listing {
    moves_that_say(session, items, "")
}

/// Such steps on the wire, each moved by a default route.
pub fn default_moves(session: u64, items: RangeInclusive<u64>) -> Listing {
    moves_that_say(session, items, " default")
}

fn moves_that_say(session: u64, items: RangeInclusive<u64>, said: &str) -> Listing {
    items.map(|item| (format!("(step {session} {item})"), format!("(made {}{said})", item + 1))).collect()
}

/// The steps of an establishment between neighbours, where only its session's set-up makes items, from the first to this one of
/// its 18: 3 and 6 are the waits; 9 comes up with Req, 11 is the responder's grant; 15 comes up with Rep, 17 is the initiator's
/// grant, 18 the ack.
pub fn establishment(session: u64, nth: u64, last: u64) -> Listing {
    let item = |item: u64| 18 * (nth - 1) + item;
    let begin = steps(
        session,
        &[
            (item(1), format!("(made {})", item(2))),
            (item(2), format!("(made {} {})", item(3), item(4))),
            (item(4), format!("(made {} {})", item(5), item(6))),
            (item(5), format!("(made {})", item(7))),
        ],
    );
    [begin, moves(session, item(7)..=item(last))].concat()
}

/// A show of these associations.
pub fn show(associations: &[impl AsRef<str>]) -> Listing {
    let lines: String = associations.iter().map(|line| format!("(assoc {})\n", line.as_ref())).collect();
    exchanges(&[("(show)", &(lines + "(end)"))])
}
