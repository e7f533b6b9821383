//! An arrival is one step (#107), on both implementations: up tests the header, matches and receives by the rows of one moment.
//! SEED and COUNT in the environment choose other random lists.

use simulator_tests::arrivals::{met, STEPS};
use simulator_tests::compare::{check, difference_from_list};
use simulator_tests::listing::{begun, chain, circle, data, establishment, moves, steps};
use simulator_tests::lists::{drops, list, LateNetwork};
use simulator_tests::program;
use simulator_tests::random::{check_met_alone, for_each_index, setting};

const CALLS: usize = 400;

/// Items 15 and 19 are bare Data at up, from before any row. The first is received before the grant at its node, by the one step;
/// behind the grant the other no longer matches.
#[test]
fn bare_data_before_and_behind_a_grant() {
    let before = |side| [begun(chain(2), 2, 0), establishment(1, 1, 10), data(side, 12), data(side, 16)].concat();
    let at_client = steps(1, &[(15, "(delivered 12)"), (11, "(made 20)"), (19, "(lost 5)"), (19, "(no 11)")]);
    check(&[before(1), at_client].concat());
    let to_grant = [steps(1, &[(11, "(made 20)")]), moves(1, 20..=24)].concat();
    let at_server = steps(1, &[(15, "(delivered 12)"), (25, "(made 26)"), (19, "(lost 5)"), (15, "(no 11)")]);
    check(&[before(0), to_grant, at_server].concat());
}

/// Items 16 and 20 are Data at up in a tunnel whose initiator has no rows yet. The match would fail as well, but lost 4 is tested
/// before lost 5.
#[test]
fn data_in_a_tunnel_before_and_behind_the_initiators_grant() {
    let before = [begun(chain(2), 2, 0), establishment(1, 1, 11), data(0, 13), data(0, 17)].concat();
    let to_grant = [steps(1, &[(16, "(lost 4)"), (12, "(made 21)")]), moves(1, 21..=24)].concat();
    let behind = steps(1, &[(25, "(made 26)"), (20, "(delivered 17)"), (16, "(no 11)"), (26, "(made 27)")]);
    check(&[before, to_grant, behind].concat());
}

/// Data at up at a gateway that has one tunnel and not yet the next: it leaves without the header, and bare it is lost there.
#[test]
fn header_stripped_before_it_is_sent_out_again() {
    let before = [begun(chain(3), 3, 1), data(0, 20)].concat();
    check(&[before, moves(1, 23..=24), steps(1, &[(25, "(lost 1)")])].concat());
}

/// In a circle of two, node 2 is initiator with 1 and then with 3. Items 57 and 61 have come to it from 1: before the second grant
/// one is sent out again, by the one step; behind it the newest row has peer 3.
#[test]
fn newer_row_of_another_peer() {
    let before = [begun(circle(2, 0), 4, 2), establishment(1, 3, 16), data(0, 54), data(0, 58)].concat();
    let behind = steps(1, &[(57, "(made 62)"), (53, "(made 63)"), (61, "(lost 5)"), (61, "(no 11)")]);
    check(&[before, behind, moves(1, 63..=63)].concat());
}

/// There, before the second grant, Data goes from 1 by 2 and 3 to 2 again. Node 2's row of peer 3 is for what goes to the client
/// and admits the header; the row that matches has peer 1.
#[test]
fn header_admitted_by_a_row_of_the_other_filter() {
    let before = [begun(circle(2, 0), 4, 2), establishment(1, 3, 16), data(0, 54)].concat();
    check(&[before, moves(1, 57..=64), steps(1, &[(65, "(lost 5)")])].concat());
}

/// In a circle of three, before node 2's grant with 4, Data goes from 1 by 2, 3 and 4 to 2 again. Node 2 has no row of peer 4; the
/// row that matches has peer 1, but lost 4 is tested before lost 5.
#[test]
fn lost_4_beside_a_row_that_matches() {
    let before = [begun(circle(3, 0), 5, 3), establishment(1, 4, 11), data(0, 67)].concat();
    check(&[before, moves(1, 70..=81), steps(1, &[(82, "(lost 4)")])].concat());
}

/// The number behind that of up is the auth's, on both sides; it is the last one where a credential is missing. The ewait goes
/// with the step of up.
#[test]
fn no_number_between_up_and_auth() {
    let needing = |node: usize| {
        let mut network = chain(2);
        network[node - 1].0 = format!("(node {node} host (has) (needs 5))");
        begun(network, 2, 0)
    };
    let denied = steps(1, &[(10, "(denied)"), (10, "(no 11)"), (11, "(no 11)"), (3, "(no 12)"), (6, "(no 12)")]);
    check(&[needing(1), establishment(1, 1, 9), denied].concat());
    let waiting = steps(1, &[(6, "(no 12)"), (15, "(made 16)"), (6, "(no 11)"), (15, "(no 11)")]);
    let denied = steps(1, &[(16, "(denied)"), (16, "(no 11)"), (17, "(no 11)"), (3, "(no 12)")]);
    check(&[needing(2), establishment(1, 1, 14), waiting, denied].concat());
}

/// An establishment has 18 numbers, and a tunnel has four for what goes through it: out, twice on the wire, up. So Done ends the
/// set-up at 22 for each tunnel, and Data takes four steps for each.
#[test]
fn numbers_over_up_to_seven_gateways() {
    for tunnels in 1..=8 {
        let (server, opened) = (tunnels + 1, 22 * tunnels);
        let done = [moves(1, 18 * tunnels + 1..=opened - 1), steps(1, &[(opened, "(opened)")])].concat();
        let through = |side: u64, first: u64| {
            let last = first + 4 * tunnels - 1;
            let on = moves(1, first + 3..=last - 1);
            [data(side, first), on, steps(1, &[(last, format!("(delivered {first})"))])].concat()
        };
        let both_ways = [through(0, opened + 1), through(1, opened + 4 * tunnels + 1)].concat();
        check(&[begun(chain(server), server, tunnels), done, both_ways].concat());
    }
}

#[test]
fn random_lists_meet_every_arrival() {
    let (seed, count) = (setting("SEED", 17), setting("COUNT", 1000));
    let met = for_each_index(count, |index| {
        let list = match index % 4 {
            3 => drops(seed, index, LateNetwork::No),
            _ => list(seed, index, CALLS, LateNetwork::No),
        };
        let output = program::run(&list.input());
        assert_eq!(difference_from_list(&list, &output), None, "SEED={seed}, list {index}");
        met(&list.calls)
    });
    check_met_alone(met.into_iter().flatten().collect(), STEPS, count >= 1000);
}
