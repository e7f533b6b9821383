//! Default routes (#104), on both implementations. Random lists and networks have them too. SEED and COUNT in the environment
//! choose other lists.

use simulator_tests::compare::{check, difference, is_network, made};
use simulator_tests::listing::{accepted, default_moves, exchanges, gate, host, moves, open, steps, Listing};
use simulator_tests::lists::{input, list, LateNetwork};
use simulator_tests::network::{route_form, LookUp, Network};
use simulator_tests::program;
use simulator_tests::random::{for_each_index, setting};
use simulator_tests::recorder::{Recorder, NONE};
use simulator_tests::simulator::Simulator;
use std::collections::BTreeSet;

/// Hosts 1 to 4, and these routes.
fn four_hosts(routes: &[&str]) -> Listing {
    [accepted((1..=4).map(host)), accepted(routes.iter().copied())].concat()
}

/// Node 1 has a default by 2, an exact route for 4 by 3, and one for 3 by 2, as its default. Only the packet for 2 goes by
/// default.
#[test]
fn exact_beside_default() {
    let routes = ["(route 1 0 2)", "(route 1 4 3)", "(route 1 3 2)", "(route 2 3 3)", "(route 3 4 4)"];
    let exact = |session| steps(session, &[(1, "(made 2)"), (2, "(made 3)"), (3, "(made 4 5)")]);
    let by_default = steps(3, &[(1, "(made 2 default)"), (2, "(made 3 4)")]);
    let sessions = [open(1, 1, 4), exact(1), open(2, 1, 3), exact(2), open(3, 1, 2), by_default].concat();
    for turn in 0..routes.len() {
        let mut routes = routes;
        // whichever is given first
        routes.rotate_left(turn);
        check(&[four_hosts(&routes), sessions.clone()].concat());
    }
}

/// Node 2 has a route for 1 alone and node 4 none: what they have no route for is lost there, whatever defaults led to them.
#[test]
fn default_beside_none() {
    let routes = ["(route 1 0 2)", "(route 2 1 1)", "(route 3 0 1)"];
    let sessions = [
        open(1, 1, 4),
        steps(1, &[(1, "(made 2 default)"), (2, "(lost 3)"), (2, "(no 11)")]),
        open(2, 2, 4),
        steps(2, &[(1, "(lost 3)")]),
        open(3, 3, 4),
        steps(3, &[(1, "(made 2 default)"), (2, "(made 3 default)"), (3, "(lost 3)")]),
        open(4, 4, 1),
        steps(4, &[(1, "(lost 3)")]),
        open(5, 2, 1),
        steps(5, &[(1, "(made 2)"), (2, "(made 3 4)")]),
    ];
    check(&[four_hosts(&routes), sessions.concat()].concat());
}

/// A circle of defaults, and one of a default and an exact route: as listing G, with what is said of each move.
#[test]
fn circles() {
    let lost = || steps(1, &[(33, "(lost 2)"), (33, "(no 11)")]);
    let defaults = four_hosts(&["(route 1 0 2)", "(route 2 0 1)"]);
    check(&[defaults, open(1, 1, 3), default_moves(1, 1..=32), lost()].concat());
    let both = four_hosts(&["(route 1 0 2)", "(route 2 3 1)"]);
    let in_turn = (1..=16).flat_map(|turn| {
        let (at_1, at_2) = (2 * turn - 1, 2 * turn);
        [default_moves(1, at_1..=at_1), moves(1, at_2..=at_2)].concat()
    });
    check(&[both, open(1, 1, 3), in_turn.collect(), lost()].concat());
}

/// 31 defaults lead through all 32 nodes; the last node's own, back to the first, is not asked for what has come to it.
#[test]
fn longest_way_by_defaults() {
    let network = [accepted((1..=32).map(host)), accepted((1..=32).map(|at| route_form(at, 0, at % 32 + 1)))];
    let server = steps(1, &[(32, "(made 33 34)"), (34, "(made 35 36)"), (35, "(made 37)")]);
    // Req takes the one hop on to the client and comes up there
    let client = steps(1, &[(37, "(made 38 default)"), (38, "(made 39)"), (39, "(made 40)")]);
    check(&[network.concat(), open(1, 1, 32), default_moves(1, 1..=31), server, client].concat());
}

/// Gateway 2 begins an establishment and loses bare Data though it has a default: only what moves is looked up.
#[test]
fn gateways_do_not_look_up_first() {
    let nodes = accepted([host(1), gate(2), host(3)]);
    let routes = accepted(["(route 1 0 2)", "(route 2 0 3)", "(route 2 1 1)", "(route 3 0 2)"]);
    let begun = steps(1, &[(1, "(made 2 default)"), (2, "(made 3 4)"), (3, "(no 12)")]);
    let send = exchanges(&[("(send 1 0 7)", "(made 5)")]);
    let data = steps(1, &[(5, "(made 6)"), (6, "(made 7 default)"), (7, "(lost 1)")]);
    let request = steps(1, &[(4, "(made 8 9)"), (8, "(made 10)"), (10, "(made 11)"), (11, "(made 12)")]);
    check(&[nodes, routes, open(1, 1, 3), begun, send, data, request].concat());
}

/// The venues of the tour.
const VENUES: [u64; 5] = [1, 2, 3, 21, 22];

/// Venues 1 to 3 hang on gateway 10, venues 21 and 22 on gateway 20: each has its uplink and no other route, and a gateway has
/// one for all beyond its own venues.
fn tour() -> Listing {
    let home = |venue: u64| if venue < 20 { 10 } else { 20 };
    let uplinks = VENUES.map(|venue| route_form(venue, 0, home(venue)));
    let downlinks = VENUES.map(|venue| route_form(home(venue), venue, venue));
    let nodes = VENUES.map(host).into_iter().chain([10, 20].map(gate));
    accepted(nodes.chain(uplinks).chain(downlinks).chain([route_form(10, 0, 20), route_form(20, 0, 10)]))
}

/// The numbers that were made by default.
fn made_by_default(listing: &[(String, String)]) -> Vec<u64> {
    listing.iter().filter(|(_, answer)| answer.ends_with(" default)")).flat_map(|(_, answer)| made(answer)).collect()
}

/// From venue 1 over both gateways to venue 21 and back, with the numbers made by default worked out by hand: Disc from 1 and
/// from 10, Req from 20 and from 21, Rep from 1 and from 10, Done from 21 and from 20.
#[test]
fn tour_opens_from_end_to_end() {
    let mut recorder = Recorder::after(&tour());
    recorder.call("(open 1 1 21)");
    assert_eq!(recorder.drive(1, NONE), "(opened)");
    assert_eq!(recorder.listing.last(), Some(&("(step 1 66)".to_string(), "(opened)".to_string())));
    assert_eq!(made_by_default(&recorder.listing), [2, 14, 20, 26, 32, 44, 57, 61]);
    check(&recorder.listing);
}

#[test]
fn tour_opens_between_all_venues() {
    let mut recorder = Recorder::after(&tour());
    for (client, server) in VENUES.into_iter().flat_map(|client| VENUES.map(|server| (client, server))) {
        if client == server {
            continue;
        }
        recorder.call(format!("(open 1 {client} {server})"));
        assert_eq!(recorder.drive(1, NONE), "(opened)", "{client} to {server}");
        for side in 0..2 {
            recorder.call(format!("(send 1 {side} 7)"));
            assert_eq!(recorder.drive(1, NONE), "(delivered 7)", "{client} to {server}");
        }
        recorder.call("(close 1)");
    }
    check(&recorder.listing);
}

/// The refusals of a default are 1, 2, 5, 4, 8 and 3, in this order: calls that meet two of them. Node 2 has a default.
#[test]
fn order_of_refusals() {
    let network = four_hosts(&["(route 1 3 3)", "(route 2 0 3)"]);
    let before_an_open = exchanges(&[
        // 1 before 2, 4, 8 and 3
        ("(route 33 0 01)", "(no 1)"),
        ("(route 9 0 01)", "(no 1)"),
        ("(route 1 0 1 )", "(no 1)"),
        ("(route 2 0 3 )", "(no 1)"),
        // 2 before 4, 8 and 3
        ("(route 9 0 33)", "(no 2)"),
        ("(route 0 0 9)", "(no 2)"),
        ("(route 33 0 33)", "(no 2)"),
        ("(route 2 0 33)", "(no 2)"),
        ("(route 2 0 0)", "(no 2)"),
        // 4 before 8 and 3
        ("(route 9 0 9)", "(no 4)"),
        ("(route 2 0 9)", "(no 4)"),
        // 8 before 3
        ("(route 2 0 2)", "(no 8)"),
    ]);
    let after_an_open = exchanges(&[
        // 1 and 2 before 5, 5 before 4, 8 and 3
        ("(route 1 0 03)", "(no 1)"),
        ("(route 33 0 3)", "(no 2)"),
        ("(route 1 0 0)", "(no 2)"),
        ("(route 9 0 3)", "(no 5)"),
        ("(route 1 0 9)", "(no 5)"),
        ("(route 1 0 1)", "(no 5)"),
        ("(route 2 0 3)", "(no 5)"),
        ("(route 1 0 3)", "(no 5)"),
        ("(close 1)", "(closed)"),
        ("(route 1 0 3)", "(no 5)"),
        ("(open 1 1 4)", "(made 2)"),
        ("(step 1 2)", "(lost 3)"),
    ]);
    check(&[network, before_an_open, open(1, 1, 4), after_an_open].concat());
}

/// A second default is refused with the same next and with another, and the first stays. Exact routes of the node, of whatever
/// next, are none, and another node has its own.
#[test]
fn second_default() {
    let network = four_hosts(&["(route 1 2 2)", "(route 1 0 3)"]);
    let calls = exchanges(&[
        ("(route 1 0 3)", "(no 3)"),
        ("(route 1 0 2)", "(no 3)"),
        ("(route 1 0 4)", "(no 3)"),
        ("(route 2 0 3)", "(ok)"),
        ("(route 1 3 3)", "(ok)"),
        ("(route 1 3 2)", "(no 3)"),
        ("(route 1 0 2)", "(no 3)"),
        ("(route 3 4 4)", "(ok)"),
        ("(route 3 0 4)", "(ok)"),
        ("(route 3 0 1)", "(no 3)"),
    ]);
    let to_4 = steps(1, &[(1, "(made 2 default)"), (2, "(made 3)"), (3, "(made 4 5)")]);
    check(&[network, calls, open(1, 1, 4), to_4].concat());
}

/// 0 is out of range wherever it is no route's destination: before a default is given, after it, and with a session in use.
/// Sides, tags and credentials have a 0 of their own.
#[test]
fn zero_is_no_node() {
    let zeros = exchanges(&[
        ("(node 0 host (has) (needs))", "(no 2)"),
        ("(node 0 gate (has) (needs))", "(no 2)"),
        ("(route 0 1 2)", "(no 2)"),
        ("(route 1 2 0)", "(no 2)"),
        ("(route 0 0 1)", "(no 2)"),
        ("(route 1 0 0)", "(no 2)"),
        ("(route 0 1 0)", "(no 2)"),
        ("(route 0 0 0)", "(no 2)"),
        ("(open 1 0 2)", "(no 2)"),
        ("(open 1 1 0)", "(no 2)"),
        ("(open 1 0 0)", "(no 2)"),
        ("(open 0 1 2)", "(no 2)"),
        ("(step 0 1)", "(no 2)"),
        ("(step 1 0)", "(no 2)"),
        ("(send 0 0 1)", "(no 2)"),
        ("(close 0)", "(no 2)"),
        ("(drop 0 1)", "(no 2)"),
        ("(drop 1 0)", "(no 2)"),
    ]);
    let defaults = accepted(["(route 1 0 2)", "(route 2 0 1)"]);
    let nodes = accepted(["(node 1 host (has 0) (needs))", "(node 2 host (has) (needs 0))"]);
    let send = exchanges(&[("(send 1 0 0)", "(made 2)")]);
    check(&[nodes, zeros.clone(), defaults, zeros.clone(), open(1, 1, 2), zeros, send].concat());
}

/// All 32 defaults and no other route, given from the highest node down; the fullest network is in the test of the text.
#[test]
fn text_of_defaults_alone() {
    let nodes: Vec<String> = (1..=32).map(host).collect();
    let defaults: Vec<String> = (1..=32).map(|at| route_form(at, 0, 33 - at)).collect();
    let given = [nodes.iter().rev().cloned().collect(), defaults.iter().rev().cloned().collect::<Vec<_>>()].concat();
    let doubles = defaults.iter().map(|default| (default.clone(), "(no 3)".to_string())).collect();
    let net = exchanges(&[("(net)", &[nodes, defaults].concat().join("\n"))]);
    check(&[accepted(given), net.clone(), doubles, net].concat());
}

/// The network with an exact route wherever its default would be taken.
fn written_out(network: &Network) -> Network {
    let pairs = network.nodes.keys().flat_map(|&at| network.nodes.keys().map(move |&to| (at, to)));
    let routes = pairs.filter(|(at, to)| at != to).filter_map(|(at, to)| match network.look_up(at, to) {
        LookUp::Exact(next) | LookUp::Default(next) => Some(((at, to), next)),
        LookUp::None => None,
    });
    Network { nodes: network.nodes.clone(), routes: routes.collect() }
}

/// The program's answers to these calls on the network, without those of the network's own and of any net.
fn answers_on(network: &Network, calls: &[Vec<u8>]) -> String {
    let output = program::run(&[input(&network.forms()), input(calls)].concat());
    let output = String::from_utf8(output).expect("the output is text");
    let own = network.forms().len();
    output.lines().skip(own).filter(|line| !is_network(line)).map(|line| format!("{line}\n")).collect()
}

/// On the program: where the routes that a default stands for are written out, every call is answered alike, and no answer says
/// default.
#[test]
fn defaults_stand_for_routes() {
    let (seed, count) = (setting("SEED", 15), setting("COUNT", 100));
    let said = for_each_index(count, |index| {
        let list = list(seed, index, 300, LateNetwork::No);
        let (given, others) = list.calls.split_at(list.network);
        let mut simulator = Simulator::new();
        given.iter().for_each(|call| drop(simulator.call(call)));
        let network = simulator.network();
        let by_default = answers_on(network, others);
        let by_exact = answers_on(&written_out(network), others);
        assert!(!by_exact.contains("default"), "SEED={seed}, list {index}");
        let without = by_default.replace(" default)", ")");
        assert_eq!(difference(by_exact.as_bytes(), without.as_bytes()), None, "SEED={seed}, list {index}");
        by_default != by_exact
    });
    let said: BTreeSet<bool> = said.into_iter().collect();
    assert!(count < 100 || said.len() == 2, "all lists go by defaults, or none");
}
