//! The counts of hops on the wire (#108), on both implementations: a bare packet uses its own, and a header brings one. Only a circle
//! uses either up, for a way that ends has at most 31 hops. Disc in a circle of hosts is listing G. All of it is as before #108.

use simulator_tests::compare::check;
use simulator_tests::listing::{
    accepted, begun, circle, data, establishment, exchanges, gate, host, moves, steps, Listing,
};
use simulator_tests::recorder::{Recorder, NONE};
use simulator_tests::topology::{forms, longest_chain, Route};

fn network(nodes: &[String], routes: &[Route]) -> Listing {
    accepted(nodes.iter().cloned().chain(forms(routes)))
}

/// A packet on the wire that moves 32 times, from this item on, and is lost then.
fn lost_after_32_moves(first: u64) -> Listing {
    let last = first + 32;
    [moves(1, first..=last - 1), steps(1, &[(last, "(lost 2)"), (last, "(no 11)")])].concat()
}

/// Data from either end in a circle of hosts: its first out, item 2 or 36, is at its source and takes nothing.
#[test]
fn bare_data() {
    let network = network(&[host(1), host(2), host(3)], &[(1, 3, 2), (2, 3, 1), (3, 1, 2), (2, 1, 3)]);
    let sent = |side: u64, item: u64| {
        let send = exchanges(&[(&format!("(send 1 {side} 7)"), &format!("(made {item})"))]);
        [send, moves(1, item..=item), lost_after_32_moves(item + 1)].concat()
    };
    check(&[begun(network, 3, 0), sent(0, 2), sent(1, 36)].concat());
}

/// Req from gateway 2 goes between it and node 4, a host or another gateway: a bare Req passes both. The waits stay.
#[test]
fn bare_req() {
    for between in [host(4), gate(4)] {
        let network = network(&[host(1), gate(2), host(3), between], &[(1, 3, 2), (2, 1, 4), (4, 1, 2)]);
        let waits = steps(1, &[(3, "(no 12)"), (6, "(no 12)")]);
        check(&[begun(network, 3, 0), establishment(1, 1, 6), lost_after_32_moves(7), waits].concat());
    }
}

/// The client's way to gateway 2 goes between it and node 4, and only Disc comes to 2, on its way to the server.
fn no_way_to_the_gateway(between: String) -> Listing {
    let routes = [(1, 3, 2), (2, 1, 1), (1, 2, 4), (4, 2, 1)];
    begun(network(&[host(1), gate(2), host(3), between], &routes), 3, 0)
}

/// There, Rep from the client, item 13.
#[test]
fn bare_rep() {
    for between in [host(4), gate(4)] {
        let waits = steps(1, &[(3, "(no 12)"), (6, "(no 12)")]);
        let before = [no_way_to_the_gateway(between), establishment(1, 1, 12)].concat();
        check(&[before, lost_after_32_moves(13), waits].concat());
    }
}

/// There, Data in the client's tunnel, which the responder's grant gives: item 14 has a header.
#[test]
fn header_from_the_client() {
    for between in [host(4), gate(4)] {
        let before = [no_way_to_the_gateway(between), establishment(1, 1, 11)].concat();
        let send = [exchanges(&[("(send 1 0 7)", "(made 13)")]), moves(1, 13..=13)].concat();
        check(&[before, send, lost_after_32_moves(14)].concat());
    }
}

/// Data in the tunnel from gateway 2 to gateway 3, whose way goes between 2 and node 5. It has come through the client's tunnel, and
/// item 35 sends it out again with 31 hops left of its own: the header, from item 36 on, has 32 again. Rep, item 69, has so too.
#[test]
fn header_from_a_gateway() {
    for between in [host(5), gate(5)] {
        let routes = [(1, 2, 2), (2, 1, 1), (1, 4, 2), (2, 4, 3), (3, 2, 2), (2, 3, 5), (5, 3, 2)];
        let network = network(&[host(1), gate(2), gate(3), host(4), between], &routes);
        let before = [begun(network, 4, 1), establishment(1, 2, 11), data(0, 31), moves(1, 34..=35)].concat();
        let rep = [steps(1, &[(30, "(made 69)")]), lost_after_32_moves(69)].concat();
        check(&[before, lost_after_32_moves(36), rep].concat());
    }
}

/// Seven gateways and the longest ways between them. Done and Data go through eight tunnels of up to 31 hops, since each header
/// brings 32, and each gateway takes but one.
#[test]
fn tunnels_together_longer_than_a_count() {
    let nodes = (1..=32).map(|node| if (2..=8).contains(&node) { gate(node) } else { host(node) });
    let mut recorder = Recorder::after(&accepted(nodes.chain(forms(&longest_chain()))));
    recorder.call("(open 1 1 9)");
    assert_eq!(recorder.drive(1, NONE), "(opened)");
    let way = |hops: u64| 1 + (hops + 1) + 1;
    for (side, steps) in [(0, 7 * way(30) + way(24)), (1, 8 * way(31))] {
        let first = recorder.listing.len();
        recorder.call(format!("(send 1 {side} 7)"));
        assert_eq!(recorder.drive(1, NONE), "(delivered 7)");
        assert_eq!(recorder.listing.len() - first, 1 + steps as usize);
    }
    check(&recorder.listing);
}

/// The Disc of gateway 2's ack, item 19, is a new packet. It comes back to 2, which is its own point, and goes round.
#[test]
fn disc_of_an_ack() {
    let routes = [(1, 2, 2), (2, 1, 1), (1, 3, 2), (2, 3, 4), (4, 3, 2)];
    let network = network(&[host(1), gate(2), host(3), host(4)], &routes);
    check(&[begun(network, 3, 1), lost_after_32_moves(19)].concat());
}

/// Two gateways with nine hosts on each way. The nine Discs of a set-up make 90 hops, and it ends for another reason. A set-up that
/// opens can't show this: its Discs together go one way to the server, of at most 31 hops.
#[test]
fn discs_of_all_acks() {
    let mut recorder = Recorder::after(&circle(2, 9));
    recorder.call("(open 1 1 4)");
    assert_eq!(recorder.drive(1, NONE), "(lost 6)");
    check(&recorder.listing);
}
