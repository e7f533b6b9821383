//! What goes through the tunnels beside one that was taken down (#109), and who uses the associations, on both implementations.

use simulator_tests::compare::check;
use simulator_tests::listing::{
    accepted, begun, chain, circle, data, establishment, exchanges, gate, host, moves, open, show, steps, Listing,
};
use simulator_tests::recorder::{Recorder, NONE};
use simulator_tests::topology::{forms, line_routes, routes_along};

const NO_ROWS: [&str; 0] = [];

fn dropped(session: u64, establishment: u64) -> Listing {
    exchanges(&[(&format!("(drop {session} {establishment})"), "(closed)")])
}

/// A session from 1 over gateway 2 to 3, to its end.
fn opened(session: u64) -> Listing {
    let set_up = [establishment(session, 1, 18), establishment(session, 2, 18), moves(session, 37..=43)];
    [open(session, 1, 3), set_up.concat(), steps(session, &[(44, "(opened)")])].concat()
}

/// Data sent as item 45 goes into its first tunnel by 45 and leaves it by 48, and goes into the second by 49, at each place where it
/// pends. Behind a dropped tunnel it goes on, in it it is lost 4, and before it the gateway loses it bare.
#[test]
fn data_before_in_and_behind_the_tunnel() {
    for (side, first, second) in [(0, 1, 2), (1, 2, 1)] {
        for pending in 45..=52 {
            let end_by_first = match pending {
                45 => (47, "(lost 1)"),
                46..=48 => (48, "(lost 4)"),
                _ => (52, "(delivered 7)"),
            };
            let end_by_second = if pending < 50 { (50, "(lost 1)") } else { (52, "(lost 4)") };
            for (establishment, (last, end)) in [(first, end_by_first), (second, end_by_second)] {
                let send = exchanges(&[(&format!("(send 1 {side} 7)"), "(made 45)")]);
                let before = [chain(3), opened(1), send, moves(1, 45..=pending - 1)].concat();
                let rest = [moves(1, pending..=last - 1), steps(1, &[(last, end), (last, "(no 11)")])].concat();
                check(&[before, dropped(1, establishment), rest].concat());
            }
        }
    }
}

/// Two sessions on the same ways, with Data of both at up behind the first tunnel, item 48. The tunnel goes under one: its Data is
/// lost though the association stands, and the other's is delivered.
#[test]
fn data_of_another_session() {
    let data = |session: u64, side: u64| {
        let send = exchanges(&[(&format!("(send {session} {side} 7)"), "(made 45)")]);
        [send, moves(session, 45..=47)].concat()
    };
    let both = [chain(3), opened(1), opened(2)].concat();
    for (side, establishment) in [(0, 1), (1, 2)] {
        let delivered = [moves(2, 48..=51), steps(2, &[(52, "(delivered 7)")])].concat();
        let after = [steps(1, &[(48, "(lost 4)")]), delivered, exchanges(&[("(drop 2 3)", "(no 17)")])].concat();
        check(&[both.clone(), data(1, side), data(2, side), dropped(1, establishment), after].concat());
    }
}

/// The users of the associations of both tunnels on a chain of three, where there are any.
fn users(first: u64, second: u64) -> Listing {
    let lines = [
        ("1 in 2 257", first),
        ("1 out 2 288", first),
        ("2 in 1 288", first),
        ("2 in 3 290", second),
        ("2 out 1 257", first),
        ("2 out 3 321", second),
        ("3 in 2 321", second),
        ("3 out 2 290", second),
    ];
    let standing = lines.iter().filter(|(_, users)| *users > 0);
    show(&standing.map(|(line, users)| format!("{line} {users}")).collect::<Vec<_>>())
}

/// Each drop takes its session's users and leaves those of the other, in the order of show.
#[test]
fn users_of_two_sessions() {
    let both = [chain(3), opened(1), opened(2), users(2, 2)].concat();
    let one_by_one = [
        dropped(1, 1),
        users(1, 2),
        dropped(2, 2),
        users(1, 1),
        dropped(2, 1),
        users(0, 1),
        exchanges(&[("(close 2)", "(closed)")]),
        users(0, 1),
        exchanges(&[("(drop 1 1)", "(no 17)")]),
        users(0, 1),
        dropped(1, 2),
        users(0, 0),
        exchanges(&[("(close 1)", "(closed)")]),
        users(0, 0),
    ];
    check(&[both, one_by_one.concat()].concat());
    let closed = exchanges(&[("(drop 1 2)", "(closed)"), ("(close 1)", "(closed)"), ("(drop 1 1)", "(no 7)")]);
    check(&[chain(3), opened(1), opened(2), closed, users(1, 1)].concat());
}

/// The show before the first grant of an establishment is that behind its drop, alone and beside another session on the same ways:
/// grants 11 and 17 are of the first, 29 and 35 of the second.
#[test]
fn show_before_the_grants() {
    for beside in [0, 1] {
        let others = if beside == 1 { opened(2) } else { Listing::new() };
        let before = [chain(3), others, open(1, 1, 3), establishment(1, 1, 10), users(beside, beside)].concat();
        let granted = [moves(1, 11..=18), users(beside + 1, beside)].concat();
        check(&[before.clone(), granted.clone(), dropped(1, 1), users(beside, beside)].concat());
        let second = [establishment(1, 2, 10), users(beside + 1, beside), moves(1, 29..=36)].concat();
        let gone = [users(beside + 1, beside + 1), dropped(1, 2), users(beside + 1, beside)].concat();
        check(&[before, granted, second, gone].concat());
    }
}

/// Three tunnels on a chain of four, the middle one dropped: Data from either end comes through the outer tunnel, and is lost bare
/// at the gateway behind it. The rows of the outer ones stay in their order.
#[test]
fn middle_tunnel() {
    let rows = ["1 in 2 257 1", "1 out 2 288 1", "2 in 1 288 1", "2 out 1 257 1"];
    let behind = ["3 in 4 323 1", "3 out 4 354 1", "4 in 3 354 1", "4 out 3 323 1"];
    let before = [begun(chain(4), 4, 3), dropped(1, 2), show(&[rows, behind].concat())].concat();
    let done = [moves(1, 55..=59), steps(1, &[(60, "(lost 1)")])].concat();
    let from = |side, first: u64| {
        [data(side, first), moves(1, first + 3..=first + 4), steps(1, &[(first + 5, "(lost 1)")])].concat()
    };
    let outer = [dropped(1, 3), show(&rows), dropped(1, 1), show(&NO_ROWS)].concat();
    check(&[before, done, from(0, 61), from(1, 67), outer].concat());
}

/// In a circle of two gateways, node 2 is initiator with 1, then twice with 3: its rows for what comes from the client are of
/// establishments 1, 3 and 5. Data from 1 is at up there as items 95, 99, 103 and so on, and passes where the newest that is left is
/// the first, lost 5 where it is of 3, and lost 4 where 1 has no row.
#[test]
fn newest_row_that_is_left() {
    let orders: [&[(u64, &str)]; 5] = [
        &[(5, "(lost 5)"), (3, "(made)")],
        &[(3, "(lost 5)"), (5, "(made)")],
        &[(2, "(lost 5)"), (4, "(lost 5)"), (5, "(lost 5)"), (3, "(made)")],
        &[(1, "(lost 4)"), (5, "(lost 4)"), (3, "(lost 4)")],
        &[(5, "(lost 5)"), (4, "(lost 5)"), (3, "(made)"), (2, "(made)"), (1, "(lost 4)")],
    ];
    for order in orders {
        let sent = (0..order.len() as u64).flat_map(|nth| data(0, 92 + 4 * nth)).collect();
        let mut last = 91 + 4 * order.len() as u64;
        let mut calls = [begun(circle(2, 0), 4, 5), sent].concat();
        for (nth, (establishment, end)) in order.iter().enumerate() {
            last += u64::from(*end == "(made)");
            let answer = end.replace("(made)", &format!("(made {last})"));
            calls.extend([dropped(1, *establishment), steps(1, &[(95 + 4 * nth as u64, answer)])].concat());
        }
        check(&calls);
    }
}

/// There, with the newest row for what comes from the client dropped, Data goes by the older one through 2 and 3, where the row that
/// led back to 2 is gone with it.
#[test]
fn older_row_of_another_peer() {
    let before = [begun(circle(2, 0), 4, 3), data(0, 56), data(0, 60)].concat();
    let newest = [steps(1, &[(59, "(lost 5)")]), dropped(1, 3), moves(1, 63..=68)].concat();
    check(&[before, newest, steps(1, &[(69, "(lost 1)"), (55, "(made 70)")])].concat());
}

/// Gateway 2 stands before a circle of 3 and 4: node 3 has a row of establishment 2 for what comes from 2, and a newer one of 4. The
/// first tunnel goes, with Data from 2 at up at 3 as items 81 and 89: the newer row is still the newer.
#[test]
fn oldest_rows_go() {
    let nodes = [host(1), gate(2), gate(3), gate(4), host(5)];
    let round = routes_along(&[1, 2, 3, 4, 3], 5);
    let network = accepted(nodes.into_iter().chain(forms(&[line_routes(&[1, 2, 3, 4]), round].concat())));
    let sent = [data(0, 74), moves(1, 77..=80), data(0, 82), moves(1, 85..=88)].concat();
    let newest = [dropped(1, 1), steps(1, &[(81, "(lost 5)")]), dropped(1, 4), steps(1, &[(89, "(made 90)")])].concat();
    check(&[begun(network, 5, 4), sent, newest].concat());
}

/// Every session has all of its rows, and the first, a middle or the last tunnel of one goes: what is left of each delivers.
#[test]
fn one_tunnel_of_eight_sessions() {
    for (session, establishment) in [(1, 1), (1, 8), (4, 1), (4, 5), (4, 8), (8, 1), (8, 8)] {
        let mut recorder = Recorder::after(&chain(9));
        for session in 1..=8 {
            recorder.call(format!("(open {session} 1 9)"));
            assert_eq!(recorder.drive(session, NONE), "(opened)");
        }
        assert_eq!(recorder.call(format!("(drop {session} {establishment})")), "(closed)");
        let shown = recorder.call("(show)");
        let lines = |users: &str| shown.lines().filter(|line| line.ends_with(users)).count();
        assert_eq!((lines(" 7)"), lines(" 8)")), (4, 28));
        for (other, side) in (1..=8).flat_map(|other| [(other, 0), (other, 1)]) {
            recorder.call(format!("(send {other} {side} 7)"));
            let end = if other == session { "(lost 1)" } else { "(delivered 7)" };
            assert_eq!(recorder.drive(other, NONE), end, "session {other} from side {side}");
        }
        check(&recorder.listing);
    }
}
