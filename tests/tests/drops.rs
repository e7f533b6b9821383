//! One tunnel is taken down (#109), on both implementations: where a drop is refused, and what an accepted one leaves of a set-up.
//! What goes through the tunnels that are left is tested in drop_rows.rs, random lists in drop_lists.rs.
//!
//! Some of the rule no list of calls shows: while Req, Rep, or the responder's auth or grant pends, so does the ewait, which names
//! the establishment too.

use simulator_tests::compare::check;
use simulator_tests::listing::{begun, chain, establishment, exchanges, moves, open, show, steps, Listing};
use std::ops::RangeInclusive;

/// The rows of the gateway and the client, and of the server and the gateway, on a chain of three.
const TUNNEL_1: [&str; 4] = ["1 in 2 257 1", "1 out 2 288 1", "2 in 1 288 1", "2 out 1 257 1"];
const TUNNEL_2: [&str; 4] = ["2 in 3 290 1", "2 out 3 321 1", "3 in 2 321 1", "3 out 2 290 1"];
const BOTH: [&str; 8] = [
    "1 in 2 257 1",
    "1 out 2 288 1",
    "2 in 1 288 1",
    "2 in 3 290 1",
    "2 out 1 257 1",
    "2 out 3 321 1",
    "3 in 2 321 1",
    "3 out 2 290 1",
];
const NO_ROWS: [&str; 0] = [];

fn drop_of(establishment: u64, answer: &str) -> Listing {
    exchanges(&[(&format!("(drop 1 {establishment})"), answer)])
}

/// The set-up over one gateway as far as the step of this item, which answers so; 19 is the second Disc, Done is 37 to 44.
fn set_up_to(item: u64, answer: &str) -> Listing {
    let mut calls = [establishment(1, 1, 18), establishment(1, 2, 18), moves(1, 37..=44)].concat();
    let end = steps(1, &[(item, answer)]);
    calls.truncate(calls.iter().position(|(call, _)| *call == end[0].0).expect("the item is stepped"));
    [calls, end].concat()
}

/// The set-up over one gateway to its end.
fn opened() -> Listing {
    set_up_to(44, "(opened)")
}

/// A drop that comes right behind the step of one of these items, 0 being the open's place: its establishment, its answer, and the
/// item and the answer with which the set-up then ends.
type Place = (u64, RangeInclusive<u64>, &'static str, u64, &'static str);

/// 2 and 20 begin the establishments, 17 and 35 make their acks. Done goes into the second tunnel by 37 and leaves it by 40, and
/// goes into the first by 41.
const PLACES: [Place; 12] = [
    (1, 0..=1, "(no 17)", 44, "(opened)"),
    (1, 2..=17, "(no 16)", 44, "(opened)"),
    (1, 18..=40, "(closed)", 42, "(lost 1)"),
    (1, 41..=43, "(closed)", 44, "(lost 4)"),
    (1, 44..=44, "(closed)", 44, "(opened)"),
    (2, 0..=19, "(no 17)", 44, "(opened)"),
    (2, 20..=35, "(no 16)", 44, "(opened)"),
    (2, 36..=36, "(closed)", 39, "(lost 1)"),
    (2, 37..=39, "(closed)", 40, "(lost 4)"),
    (2, 40..=44, "(closed)", 44, "(opened)"),
    (3, 0..=44, "(no 17)", 44, "(opened)"),
    (8, 0..=44, "(no 17)", 44, "(opened)"),
];

/// The items that the set-up steps, and 0 before them; the others of its numbers are the waits.
fn places() -> impl Iterator<Item = u64> {
    (0..=44).filter(|item| ![3, 6, 21, 24].contains(item))
}

/// The drop, and another one behind it, come at this place; then the set-up goes on to its end.
fn check_place(after: u64, (establishment, _, answer, last, end): &Place) {
    let calls = set_up_to(*last, end);
    let before = places().take_while(|&item| item < after).count();
    let (again, at_the_end, rows) = match (*answer, establishment) {
        ("(closed)", 1) => ("(no 17)", "(no 17)", &TUNNEL_2[..]),
        ("(closed)", _) => ("(no 17)", "(no 17)", &TUNNEL_1[..]),
        (refusal, 1 | 2) => (refusal, "(closed)", &BOTH[..]),
        (refusal, _) => (refusal, "(no 17)", &BOTH[..]),
    };
    let twice = [drop_of(*establishment, answer), drop_of(*establishment, again)].concat();
    let ended = [steps(1, &[(*last, "(no 11)")]), show(rows), drop_of(*establishment, at_the_end)].concat();
    let whole = [chain(3), open(1, 1, 3), calls[..before].to_vec(), twice, calls[before..].to_vec(), ended];
    check(&whole.concat());
}

#[test]
fn every_place_of_a_set_up() {
    for establishment in [1, 2, 3, 8] {
        for after in places() {
            let mut fitting = PLACES.iter().filter(|(nth, items, ..)| *nth == establishment && items.contains(&after));
            check_place(after, fitting.next().expect("each place has its line"));
            assert_eq!(fitting.next(), None);
        }
    }
}

/// Between hosts, Done is 19 to 22. Without its tunnel it comes bare to the client, where no row is left; in the tunnel it is lost.
#[test]
fn every_place_of_done_between_hosts() {
    for after in 18..=21 {
        let end = if after == 18 { "(opened)" } else { "(lost 4)" };
        let before = [begun(chain(2), 2, 1), moves(1, 19..=after)].concat();
        let rest = [moves(1, after + 1..=21), steps(1, &[(22, end)])].concat();
        check(&[before, drop_of(1, "(closed)"), rest, drop_of(1, "(no 17)"), show(&NO_ROWS)].concat());
    }
}

/// From 1 over gateway 2 to 3, and from 3 straight back. Bare Done comes to the client past the gateway, where the row of
/// establishment 1 is not for what is bare; with that dropped too, it opens.
#[test]
fn done_that_comes_bare_to_the_client() {
    let mut network = chain(3);
    for (call, _) in &mut network {
        *call = call.replace("(route 3 1 2)", "(route 3 1 1)");
    }
    let without_2 = [begun(network, 3, 2), drop_of(2, "(closed)"), moves(1, 37..=38)].concat();
    check(&[without_2.clone(), steps(1, &[(39, "(made 40)"), (40, "(lost 5)")]), show(&TUNNEL_1)].concat());
    check(&[without_2, drop_of(1, "(closed)"), steps(1, &[(39, "(made 40)"), (40, "(opened)")])].concat());
}

/// An ewait names its establishment and stays where no Rep comes to it: the drop is refused until a close, and establishments then
/// count from 1 again.
fn check_busy_for_ever(network: Listing, server: u64, last: u64, end: &str, rows: &[&str]) {
    let before = [begun(network, server, 0), establishment(1, 1, last - 1), steps(1, &[(last, end)])].concat();
    let busy = [show(rows), drop_of(1, "(no 16)"), drop_of(1, "(no 16)"), show(rows), steps(1, &[(6, "(no 12)")])];
    let close = exchanges(&[("(close 1)", "(closed)"), ("(drop 1 1)", "(no 7)")]);
    let first = last + 1;
    let reopen = exchanges(&[(&format!("(open 1 1 {server})"), &format!("(made {first})")), ("(drop 1 1)", "(no 17)")]);
    let begin = steps(1, &[(first + 1, format!("(made {} {})", first + 2, first + 3))]);
    let anew = [moves(1, first..=first), drop_of(1, "(no 17)"), begin, drop_of(1, "(no 16)"), drop_of(2, "(no 17)")];
    check(&[before, busy.concat(), close, show(&NO_ROWS), reopen, anew.concat()].concat());
}

/// The network without this route.
fn without(mut network: Listing, route: &str) -> Listing {
    network.retain(|(call, _)| call != route);
    network
}

/// The network with this node in need of a credential that no other has.
fn needing(mut network: Listing, node: usize) -> Listing {
    network[node - 1].0 = network[node - 1].0.replace("(needs)", "(needs 5)");
    network
}

/// Req 7 and Rep 13 have no route; the responder denies by item 10. Only where Rep was written are there rows.
#[test]
fn ewait_that_stays() {
    check_busy_for_ever(without(chain(2), "(route 2 1 1)"), 2, 7, "(lost 3)", &NO_ROWS);
    check_busy_for_ever(without(chain(3), "(route 1 2 2)"), 3, 13, "(lost 3)", &TUNNEL_1[..2]);
    check_busy_for_ever(needing(chain(3), 1), 3, 10, "(denied)", &NO_ROWS);
}

/// The initiator denies: the responder's two rows are all there are, and no item names the establishment. The dwait stays.
#[test]
fn half_a_tunnel() {
    let first = [begun(needing(chain(3), 2), 3, 0), establishment(1, 1, 15), steps(1, &[(16, "(denied)")])].concat();
    let gone = [drop_of(1, "(closed)"), show(&NO_ROWS), drop_of(1, "(no 17)"), steps(1, &[(3, "(no 12)")])].concat();
    check(&[first, show(&TUNNEL_1[..2]), gone].concat());
    let second = [begun(needing(chain(3), 3), 3, 1), establishment(1, 2, 15), steps(1, &[(34, "(denied)")])].concat();
    let rows = [&TUNNEL_1[..3], &TUNNEL_2[..1], &TUNNEL_1[3..], &TUNNEL_2[1..2]].concat();
    let gone = [drop_of(2, "(closed)"), show(&TUNNEL_1), drop_of(2, "(no 17)"), steps(1, &[(21, "(no 12)")])].concat();
    check(&[second.clone(), show(&rows), gone, drop_of(1, "(closed)"), show(&NO_ROWS)].concat());
    check(&[second, drop_of(1, "(closed)"), show(&TUNNEL_2[..2]), drop_of(2, "(closed)"), show(&NO_ROWS)].concat());
}

/// What pends and names no establishment: Data at out, then on the wire and at up, with Done; and at last a dwait, 21. A Disc is among
/// the places of the set-up.
#[test]
fn items_that_name_none() {
    let sent = exchanges(&[("(send 1 0 7)", "(made 19)"), ("(send 1 1 8)", "(made 20)")]);
    let on_the_way = [steps(1, &[(19, "(made 21)"), (20, "(made 22)")]), moves(1, 22..=23)].concat();
    let before = [begun(chain(2), 2, 0), establishment(1, 1, 17), sent].concat();
    let ack = steps(1, &[(18, "(made 21)")]);
    check(&[before.clone(), drop_of(1, "(no 16)"), ack, drop_of(1, "(closed)")].concat());
    let late_ack = steps(1, &[(18, "(made 25)")]);
    check(&[before, on_the_way, drop_of(1, "(no 16)"), late_ack, drop_of(1, "(closed)")].concat());
    let waiting = [begun(chain(3), 3, 1), moves(1, 19..=19), steps(1, &[(20, "(made 21 22)")])].concat();
    check(&[waiting, drop_of(1, "(closed)"), drop_of(2, "(no 16)"), steps(1, &[(21, "(no 12)")])].concat());
}

/// A drop leaves the session in use and its numbers as they are; behind a close, establishments begin from 1 and numbers go on.
#[test]
fn close_and_reopen() {
    let dropped = [begun(chain(2), 2, 1), drop_of(1, "(closed)")].concat();
    let reopen = exchanges(&[("(open 1 1 2)", "(no 6)"), ("(close 1)", "(closed)"), ("(drop 1 1)", "(no 7)")]);
    let again = exchanges(&[("(open 1 1 2)", "(made 20)"), ("(drop 1 1)", "(no 17)"), ("(step 1 20)", "(made 21)")]);
    let begin = steps(1, &[(21, "(made 22 23)"), (23, "(made 24 25)"), (24, "(made 26)")]);
    let to_ack = [begin, moves(1, 26..=36), drop_of(1, "(no 16)"), moves(1, 37..=40), steps(1, &[(41, "(opened)")])];
    let end = [show(&TUNNEL_1), drop_of(1, "(closed)"), show(&NO_ROWS)].concat();
    check(&[dropped, reopen, again, to_ack.concat(), end].concat());
}

/// With eight begun the ninth is lost 6, whichever are dropped; with seven begun, the eighth is still to begin.
#[test]
fn dropped_ones_count_as_begun() {
    for dropped in [&[1][..], &[4], &[8], &[8, 7, 6, 5, 4, 3, 2, 1]] {
        let drops = dropped.iter().flat_map(|&nth| drop_of(nth, "(closed)")).collect();
        let lost = [moves(1, 145..=145), steps(1, &[(146, "(lost 6)")])].concat();
        check(&[begun(chain(10), 10, 8), drops, lost, drop_of(dropped[0], "(no 17)")].concat());
    }
    let drops = [drop_of(7, "(closed)"), drop_of(8, "(no 17)")].concat();
    let eighth = [establishment(1, 8, 17), drop_of(7, "(no 17)"), drop_of(8, "(no 16)"), moves(1, 144..=145)].concat();
    check(&[begun(chain(10), 10, 7), drops, eighth, steps(1, &[(146, "(lost 6)")]), drop_of(8, "(closed)")].concat());
}

/// Refused drops of every kind behind each step, of this session and of others, change nothing.
#[test]
fn refused_drops_change_nothing() {
    let mut calls = [chain(3), open(1, 1, 3)].concat();
    for (nth, step) in opened().into_iter().enumerate() {
        calls.push(step);
        let busy = [(1, 2..=15), (2, 18..=31)].into_iter().filter(|(_, places)| places.contains(&(nth + 1)));
        calls.extend(busy.flat_map(|(establishment, _)| drop_of(establishment, "(no 16)")));
        calls.extend(exchanges(&[("(drop 1 3)", "(no 17)"), ("(drop 2 1)", "(no 7)"), ("(drop 1 9)", "(no 2)")]));
        calls.extend(exchanges(&[("(drop 9 1)", "(no 2)"), ("(drop 1)", "(no 1)"), ("(drop 1 1 1)", "(no 1)")]));
    }
    let through = [moves(1, 45..=51), steps(1, &[(52, "(delivered 7)")])].concat();
    check(&[calls, show(&BOTH), exchanges(&[("(send 1 0 7)", "(made 45)")]), through].concat());
}
