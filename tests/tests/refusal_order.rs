//! The order of refusals: calls that meet several conditions at once get the first of them, on both implementations.

use simulator_tests::compare::check;

/// Hosts 1 and 2, gateway 3, and routes 1 for 2 and 2 for 1.
const NETWORK: [(&str, &str); 5] = [
    ("(node 1 host (has) (needs))", "(ok)"),
    ("(node 2 host (has) (needs))", "(ok)"),
    ("(node 3 gate (has) (needs))", "(ok)"),
    ("(route 1 2 2)", "(ok)"),
    ("(route 2 1 1)", "(ok)"),
];

fn on_network(script: &[(&str, &str)]) {
    check(&[&NETWORK, script].concat());
}

#[test]
fn unreadable_before_range() {
    on_network(&[
        ("(node 33 host (has 64) (needs)", "(no 1)"),
        ("(node 33 router (has) (needs))", "(no 1)"),
        ("(route 33 0 01)", "(no 1)"),
        ("(open 9 33 x)", "(no 1)"),
        ("(step 9 00)", "(no 1)"),
        ("(send 9 2 11111111111)", "(no 1)"),
        ("(close 9 9)", "(no 1)"),
        ("(drop 9 09)", "(no 1)"),
        ("(show 99)", "(no 1)"),
        ("(net 99)", "(no 1)"),
    ]);
}

#[test]
fn node() {
    on_network(&[
        // 2 before 3
        ("(node 1 host (has 64) (needs))", "(no 2)"),
        ("(node 1 host (has) (needs))", "(no 3)"),
        ("(node 1 gate (has 1) (needs 2))", "(no 3)"),
        ("(open 1 1 2)", "(made 1)"),
        // 2 before 5, 5 before 3
        ("(node 1 host (has 1 1) (needs))", "(no 2)"),
        ("(node 1 host (has) (needs))", "(no 5)"),
        ("(node 4 host (has) (needs))", "(no 5)"),
        ("(close 1)", "(closed)"),
        // 5 stays after the close
        ("(node 4 host (has) (needs))", "(no 5)"),
    ]);
}

/// Exact routes: a default has its own test.
#[test]
fn route() {
    on_network(&[
        // 2 before 4, 8 and 3
        ("(route 33 33 33)", "(no 2)"),
        ("(route 1 2 33)", "(no 2)"),
        // 4 before 8, for each of the three places, and before 3
        ("(route 9 9 9)", "(no 4)"),
        ("(route 9 1 9)", "(no 4)"),
        ("(route 1 9 1)", "(no 4)"),
        ("(route 1 1 9)", "(no 4)"),
        ("(route 1 2 9)", "(no 4)"),
        // 8 before 3
        ("(route 1 2 1)", "(no 8)"),
        ("(route 1 1 2)", "(no 8)"),
        ("(route 1 1 1)", "(no 8)"),
        ("(route 1 2 3)", "(no 3)"),
        ("(route 1 2 2)", "(no 3)"),
        // a default changes none of that
        ("(route 1 0 3)", "(ok)"),
        ("(route 1 9 3)", "(no 4)"),
        ("(route 1 1 3)", "(no 8)"),
        ("(route 1 2 3)", "(no 3)"),
        ("(open 1 1 2)", "(made 1)"),
        // 2 before 5, 5 before 4, 8 and 3
        ("(route 33 9 9)", "(no 2)"),
        ("(route 9 9 9)", "(no 5)"),
        ("(route 1 1 1)", "(no 5)"),
        ("(route 1 2 2)", "(no 5)"),
        ("(route 1 3 3)", "(no 5)"),
        ("(close 1)", "(closed)"),
        ("(route 1 3 3)", "(no 5)"),
    ]);
}

/// No refusal but 0 and 1: it is answered before the first node, while a session is in use, and after its close.
#[test]
fn net() {
    check(&[("(net)", ""), ("(node 1 host (has) (needs))", "(ok)"), ("(net)", "(node 1 host (has) (needs))")]);
    let network = NETWORK.map(|(call, _)| call).join("\n");
    on_network(&[
        ("(net)", &network),
        ("(open 1 1 2)", "(made 1)"),
        ("(net)", &network),
        ("(node 4 host (has) (needs))", "(no 5)"),
        ("(route 1 3 3)", "(no 5)"),
        ("(net)", &network),
        ("(close 1)", "(closed)"),
        ("(net)", &network),
    ]);
}

/// The place of 10 is in the test of the last number.
#[test]
fn open() {
    on_network(&[
        // a refused open is no accepted one: node and route calls still pass
        ("(open 1 1 1)", "(no 8)"),
        ("(node 4 host (has) (needs))", "(ok)"),
        ("(open 1 1 2)", "(made 1)"),
        // 2 before 6
        ("(open 1 1 33)", "(no 2)"),
        // 6 before 4, 8 and 9
        ("(open 1 9 9)", "(no 6)"),
        ("(open 1 1 1)", "(no 6)"),
        ("(open 1 3 3)", "(no 6)"),
        ("(open 1 1 2)", "(no 6)"),
        // 4 before 8 and 9, at either end
        ("(open 2 9 9)", "(no 4)"),
        ("(open 2 3 9)", "(no 4)"),
        ("(open 2 9 3)", "(no 4)"),
        // 8 before 9
        ("(open 2 3 3)", "(no 8)"),
        ("(open 2 1 1)", "(no 8)"),
        ("(open 2 1 3)", "(no 9)"),
        ("(open 2 3 1)", "(no 9)"),
        ("(open 2 2 1)", "(made 1)"),
    ]);
}

/// The places of 10 are in the test of the last number.
#[test]
fn step_send_and_close() {
    on_network(&[
        // 2 before 7
        ("(step 1 0)", "(no 2)"),
        ("(send 1 2 1)", "(no 2)"),
        // 7 before 11
        ("(step 1 1)", "(no 7)"),
        ("(send 1 0 1)", "(no 7)"),
        ("(close 1)", "(no 7)"),
        ("(open 1 1 2)", "(made 1)"),
        ("(step 1 2)", "(no 11)"),
        ("(step 1 1)", "(made 2)"),
        ("(step 1 2)", "(made 3 4)"),
        ("(step 1 2)", "(no 11)"),
        ("(step 1 3)", "(no 12)"),
        ("(step 1 4)", "(made 5 6)"),
        ("(step 1 6)", "(no 12)"),
        ("(close 1)", "(closed)"),
        // 7 before 11 and 12 of what was pending
        ("(step 1 3)", "(no 7)"),
        ("(step 1 5)", "(no 7)"),
        ("(close 1)", "(no 7)"),
    ]);
}

/// Establishment 1 has no rows while it is busy; what is busy for one session, and the tunnel of another, are nothing to a third.
#[test]
fn drop_a_tunnel() {
    on_network(&[
        // 1 before 7, 2 before 7, 7 before 17
        ("(drop 1 01)", "(no 1)"),
        ("(drop 1 0)", "(no 2)"),
        ("(drop 1 9)", "(no 2)"),
        ("(drop 1 1)", "(no 7)"),
        ("(open 1 1 2)", "(made 1)"),
        ("(step 1 1)", "(made 2)"),
        ("(drop 1 1)", "(no 17)"),
        ("(step 1 2)", "(made 3 4)"),
        // 1 before 16 and 17, 2 before 17, 16 before 17
        ("(drop 1 1 )", "(no 1)"),
        ("(drop 1 02)", "(no 1)"),
        ("(drop 1 9)", "(no 2)"),
        ("(drop 1 1)", "(no 16)"),
        ("(drop 1 2)", "(no 17)"),
        ("(drop 2 1)", "(no 7)"),
        ("(open 2 1 2)", "(made 1)"),
        ("(drop 2 1)", "(no 17)"),
        ("(close 1)", "(closed)"),
        // 7 before 16 and 17 of what was pending
        ("(drop 1 1)", "(no 7)"),
        ("(drop 1 2)", "(no 7)"),
        ("(drop 1 0)", "(no 2)"),
    ]);
}

/// The twelfth send is accepted, the thirteenth not; an item of data on its way still counts until it is used up.
#[test]
fn send_beyond_the_limit() {
    let mut script: Vec<(String, String)> = vec![("(open 1 1 2)".into(), "(made 1)".into())];
    script.extend((2..=13).map(|made| (format!("(send 1 {} {made})", made % 2), format!("(made {made})"))));
    let rest = [
        ("(send 1 2 1)", "(no 2)"),
        ("(send 1 0 1)", "(no 13)"),
        ("(send 1 1 1)", "(no 13)"),
        ("(send 2 0 1)", "(no 7)"),
        ("(step 1 2)", "(made 14)"),
        ("(send 1 0 1)", "(no 13)"),
        ("(step 1 14)", "(made 15)"),
        ("(send 1 0 1)", "(no 13)"),
        ("(step 1 15)", "(made 16)"),
        ("(send 1 0 1)", "(no 13)"),
        ("(step 1 16)", "(delivered 2)"),
        ("(send 1 0 1)", "(made 17)"),
        ("(send 1 0 1)", "(no 13)"),
        ("(close 1)", "(closed)"),
        ("(open 1 1 2)", "(made 18)"),
        ("(send 1 0 1)", "(made 19)"),
    ];
    script.extend(rest.map(|(call, answer)| (call.to_string(), answer.to_string())));
    let network = NETWORK.map(|(call, answer)| (call.to_string(), answer.to_string()));
    check(&[&network, &script[..]].concat());
}
