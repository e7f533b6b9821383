//! Show's order, on both implementations: by node, then in before out, then by peer. Random lists test it too.

use simulator_tests::compare::{check, difference};
use simulator_tests::listing::{establishment, exchanges, moves, show, Listing};

/// Hosts 2, 10 and 30 around gateway 9.
const NETWORK: [(&str, &str); 12] = [
    ("(node 30 host (has) (needs))", "(ok)"),
    ("(node 10 host (has) (needs))", "(ok)"),
    ("(node 9 gate (has) (needs))", "(ok)"),
    ("(node 2 host (has) (needs))", "(ok)"),
    ("(route 30 10 9)", "(ok)"),
    ("(route 30 9 9)", "(ok)"),
    ("(route 10 2 9)", "(ok)"),
    ("(route 10 9 9)", "(ok)"),
    ("(route 2 9 9)", "(ok)"),
    ("(route 9 30 30)", "(ok)"),
    ("(route 9 10 10)", "(ok)"),
    ("(route 9 2 2)", "(ok)"),
];

/// The steps of a set-up over the gateway, to each grant and with it: 0 is the client's and 1 the gateway's of their
/// tunnel, 2 the gateway's and 3 the server's of theirs.
fn to_grant(session: u64, grant: usize) -> Listing {
    match grant {
        0 => establishment(session, 1, 11),
        1 => moves(session, 12..=17),
        2 => [moves(session, 18..=18), establishment(session, 2, 11)].concat(),
        _ => moves(session, 30..=35),
    }
}

/// Session 1 goes from 30 by 9 to 10, with a show after each grant. A grant adds its out row before its in row, and
/// what it adds is shown before older associations or between them.
fn first_session() -> Listing {
    let (at_30, at_10) = (["30 in 9 1192 1", "30 out 9 541 1"], ["10 in 9 552 1", "10 out 9 521 1"]);
    let at_9 = ["9 in 10 521 1", "9 in 30 541 1", "9 out 10 552 1", "9 out 30 1192 1"];
    [
        exchanges(&[("(open 1 30 10)", "(made 1)")]),
        to_grant(1, 0),
        show(&at_30),
        to_grant(1, 1),
        show(&[&["9 in 30 541 1", "9 out 30 1192 1"], &at_30[..]].concat()),
        to_grant(1, 2),
        show(&[&at_9, &at_30[..]].concat()),
        to_grant(1, 3),
        show(&[&at_9, &at_10[..], &at_30].concat()),
    ]
    .concat()
}

/// Session 2 goes from 10 by 9 to 2 and shares the tunnel of 9 and 10; then session 1 closes.
fn second_session() -> Listing {
    let both = [
        "2 in 9 296 1",
        "2 out 9 513 1",
        "9 in 2 513 1",
        "9 in 10 521 2",
        "9 in 30 541 1",
        "9 out 2 296 1",
        "9 out 10 552 2",
        "9 out 30 1192 1",
        "10 in 9 552 2",
        "10 out 9 521 2",
        "30 in 9 1192 1",
        "30 out 9 541 1",
    ];
    let second = [
        "2 in 9 296 1",
        "2 out 9 513 1",
        "9 in 2 513 1",
        "9 in 10 521 1",
        "9 out 2 296 1",
        "9 out 10 552 1",
        "10 in 9 552 1",
        "10 out 9 521 1",
    ];
    let (open, close) = (exchanges(&[("(open 2 10 2)", "(made 1)")]), exchanges(&[("(close 1)", "(closed)")]));
    let set_up = (0..4).flat_map(|grant| to_grant(2, grant)).collect();
    [open, set_up, show(&both), close, show(&second)].concat()
}

/// Both sessions set up the higher nodes and peers first; as text the nodes would be 10, 2, 30, 9.
#[test]
fn by_node_then_in_before_out_then_by_peer() {
    check(&[exchanges(&NETWORK), first_session(), second_session()].concat());
}

/// What the other tests compare by tells two orders apart, and names the first line that differs.
#[test]
fn another_order_is_a_difference() {
    let shown = b"(closed)\n(assoc 1 in 2 257 1)\n(assoc 1 out 2 288 1)\n(end)\n";
    let other = b"(closed)\n(assoc 1 out 2 288 1)\n(assoc 1 in 2 257 1)\n(end)\n";
    let text = r#"expected Some("(assoc 1 in 2 257 1)\n"), written Some("(assoc 1 out 2 288 1)\n")"#;
    assert_eq!(difference(shown, other), Some((1, text.to_string())));
    assert_eq!(difference(shown, shown), None);
}
