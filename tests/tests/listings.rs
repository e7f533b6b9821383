//! Listings A to I of document 01, on both implementations, and the count of #103 on the first three.

use simulator_tests::compare::check;
use simulator_tests::listing::{exchanges, moves, show, steps, Listing};
use simulator_tests::simulator::Simulator;

fn open(session: u64) -> Listing {
    exchanges(&[(&format!("(open {session} 1 2)"), "(made 1)")])
}

/// The network of listing B: A's nodes and route, and the route back.
fn pair() -> Listing {
    exchanges(&[
        ("(node 1 host (has) (needs))", "(ok)"),
        ("(node 2 host (has) (needs))", "(ok)"),
        ("(route 1 2 2)", "(ok)"),
        ("(route 2 1 1)", "(ok)"),
    ])
}

/// Listing B's steps after the open. Items 3 and 6 are the waits; item 11 is the responder's grant, 17 the initiator's.
const SET_UP: [(u64, &str); 20] = [
    (1, "(made 2)"),
    (2, "(made 3 4)"),
    (4, "(made 5 6)"),
    (5, "(made 7)"),
    (7, "(made 8)"),
    (8, "(made 9)"),
    (9, "(made 10)"),
    (10, "(made 11)"),
    (11, "(made 12)"),
    (12, "(made 13)"),
    (13, "(made 14)"),
    (14, "(made 15)"),
    (15, "(made 16)"),
    (16, "(made 17)"),
    (17, "(made 18)"),
    (18, "(made 19)"),
    (19, "(made 20)"),
    (20, "(made 21)"),
    (21, "(made 22)"),
    (22, "(opened)"),
];

fn a() -> Listing {
    exchanges(&[
        ("(node 1 host (has) (needs))", "(ok)"),
        ("(node 2 host (has) (needs))", "(ok)"),
        ("(route 1 2 2)", "(ok)"),
        ("(open 1 1 2)", "(made 1)"),
        ("(step 1 1)", "(made 2)"),
        ("(step 1 2)", "(made 3 4)"),
        ("(step 1 3)", "(no 12)"),
        ("(step 1 1)", "(no 11)"),
        ("(close 1)", "(closed)"),
        ("(step 1 4)", "(no 7)"),
        ("(open 1 1 2)", "(made 5)"),
    ])
}

fn b() -> Listing {
    [pair(), opened(1)].concat()
}

fn c() -> Listing {
    [pair(), half_open(), early_data()].concat()
}

fn opened(session: u64) -> Listing {
    [open(session), steps(session, &SET_UP)].concat()
}

/// Session 1 up to and with the responder's grant.
fn half_open() -> Listing {
    [open(1), steps(1, &SET_UP[..9])].concat()
}

/// Data after the responder's grant that reaches node 2 before the initiator's.
fn early_data() -> Listing {
    let send = exchanges(&[("(send 1 0 77)", "(made 13)")]);
    let data = steps(1, &[(13, "(made 14)"), (14, "(made 15)"), (15, "(made 16)"), (16, "(lost 4)")]);
    [send, data].concat()
}

/// The second implementation after these calls.
fn after(listing: &[(String, String)]) -> Simulator {
    let mut simulator = Simulator::new();
    for (call, _) in listing {
        simulator.call(call.as_bytes());
    }
    simulator
}

#[test]
fn a_waits_used_up_items_and_reopening() {
    check(&a());
}

#[test]
fn b_item_22_opens() {
    check(&b());
}

/// The steps written down for B are those of the lowest item that is no wait.
#[test]
fn b_steps_the_lowest_item() {
    let mut simulator = after(&[pair(), open(1)].concat());
    for (item, _) in SET_UP {
        assert_eq!(simulator.pending(1).0.first(), Some(&item));
        simulator.call(format!("(step 1 {item})").as_bytes());
    }
    assert_eq!(simulator.pending(1), (vec![], vec![]));
}

#[test]
fn c_data_before_the_initiators_grant_is_lost() {
    check(&c());
}

#[test]
fn d_another_sessions_association_does_not_help() {
    check(&[pair(), opened(2), half_open(), early_data()].concat());
}

#[test]
fn e_data_from_before_any_row_is_lost() {
    // Items 2 and 3 are the data, so the set-up's numbers after 1 are two higher.
    let data = exchanges(&[("(send 1 0 77)", "(made 2)"), ("(step 1 2)", "(made 3)")]);
    let mut calls = [pair(), open(1), data].concat();
    let mut simulator = after(&calls);
    while let Some(&item) = simulator.pending(1).0.iter().find(|&&item| item != 3) {
        let call = format!("(step 1 {item})");
        let answer = simulator.call(call.as_bytes()).concat();
        calls.push((call, answer));
    }
    assert_eq!(calls.last(), Some(&("(step 1 24)".to_string(), "(opened)".to_string())));
    let received = steps(1, &[(3, "(made 25)"), (25, "(made 26)"), (26, "(lost 5)")]);
    check(&[calls, received].concat());
}

#[test]
fn f_a_missing_credential_is_denied() {
    let mut network = pair();
    network[0].0 = "(node 1 host (has) (needs 5))".to_string();
    check(&[network, open(1), steps(1, &SET_UP[..7]), steps(1, &[(10, "(denied)")])].concat());
}

#[test]
fn f_the_credential_held_is_granted() {
    let mut network = pair();
    network[0].0 = "(node 1 host (has) (needs 5))".to_string();
    network[1].0 = "(node 2 host (has 0 5 63) (needs))".to_string();
    check(&[network, opened(1)].concat());
}

#[test]
fn g_a_loop_ends_at_the_hop_limit() {
    let network = exchanges(&[
        ("(node 1 host (has) (needs))", "(ok)"),
        ("(node 2 host (has) (needs))", "(ok)"),
        ("(node 3 host (has) (needs))", "(ok)"),
        ("(route 1 3 2)", "(ok)"),
        ("(route 2 3 1)", "(ok)"),
        ("(open 1 1 3)", "(made 1)"),
    ]);
    check(&[network, moves(1, 1..=32), steps(1, &[(33, "(lost 2)"), (33, "(no 11)")])].concat());
}

#[test]
fn h_users_are_counted_over_sessions() {
    let shown = |users: u64| {
        show(&["1 in 2 257", "1 out 2 288", "2 in 1 288", "2 out 1 257"].map(|line| format!("{line} {users}")))
    };
    let close = |session: u64| exchanges(&[(&format!("(close {session})"), "(closed)")]);
    let none: [&str; 0] = [];
    check(&[pair(), opened(1), opened(2), shown(2), close(1), shown(1), close(2), show(&none)].concat());
}

#[test]
fn i_node_32_is_the_last() {
    check(&[("(node 32 host (has) (needs))", "(ok)"), ("(node 33 host (has) (needs))", "(no 2)")]);
}

/// The open at A's end counts anew, all of B's steps count, and C's five of Data do not. A refused step and a close change
/// nothing.
#[test]
fn steps_since_the_open() {
    let steps = |listing: &[(String, String)]| after(listing).set_up_steps(1);
    let a = a();
    let after_each_from_the_open: Vec<u64> = (4..=a.len()).map(|calls| steps(&a[..calls])).collect();
    assert_eq!(after_each_from_the_open, [0, 1, 2, 2, 2, 2, 2, 0]);
    assert_eq!(steps(&b()), 20);
    assert_eq!(steps(&c()), 9);
}
