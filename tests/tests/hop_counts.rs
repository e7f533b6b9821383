//! The inner count of hops (#108), on both implementations. It shows in Data that goes round in tunnels: the 33rd out again is lost 2,
//! however long the tunnels are, for their hops are the headers' to count. SEED and COUNT in the environment choose other random
//! lists.
//!
//! Data with no hops left has been sent out before by every gateway of its circle: only behind a drop (#109) is there no row at that
//! out, and only behind one is Data bare at a gateway with none left.
//!
//! Some of the rule no list of calls shows. Where Data is sent out again and goes bare, it is at a gateway and lost 1 by its next
//! step, so that it is less one is not seen. A Done goes through seven gateways at most.

use simulator_tests::calculus::{Item, Side};
use simulator_tests::compare::{check, difference_from_list, made};
use simulator_tests::hops::{kinds, met};
use simulator_tests::listing::{begun, circle, data, establishment, exchanges, moves, show, steps, Listing};
use simulator_tests::lists::{rounds, LateNetwork};
use simulator_tests::program;
use simulator_tests::random::{check_met_alone, for_each_index, setting};
use simulator_tests::recorder::Recorder;
use std::collections::BTreeSet;

/// The gateway where the client's tunnel ends and the circle begins.
const ENTRANCE: u64 = 2;
/// How often Data can be sent out again.
const OUTS: u64 = 32;

/// Sessions from host 1 into a circle of gateways. Each answer to Data is worked out before it is asked for.
struct Circle {
    recorder: Recorder,
    gateways: u64,
    /// the steps from one gateway to the next: out, on the wire at each node of the way, up
    way: u64,
}

/// Data since its first out again: the item as which it pends, and its steps.
struct Going {
    session: u64,
    item: u64,
    steps: u64,
}

impl Circle {
    fn new(gateways: u64, hosts: u64) -> Self {
        Circle { recorder: Recorder::after(&circle(gateways, hosts)), gateways, way: 1 + (hosts + 2) + 1 }
    }

    /// Opens a session, and steps its set-up as far as the grant that closes the circle: Data has to come up at the entrance before
    /// that, while the newest row there is the client's.
    fn open(&mut self, session: u64) {
        let server = self.gateways + 2;
        self.recorder.call(format!("(open {session} 1 {server})"));
        let closing = self.gateways + 1;
        let grant = Item::Grant { at: ENTRANCE, peer: closing, establishment: closing, side: Side::Initiator };
        while self.recorder.simulator.item(session, self.active(session)) != Some(&grant) {
            self.set_up(session);
        }
    }

    /// The item with which the set-up goes on: there is one until its end.
    fn active(&self, session: u64) -> u64 {
        self.recorder.simulator.active(session)[0]
    }

    fn set_up(&mut self, session: u64) -> String {
        self.recorder.call(format!("(step {session} {})", self.active(session)))
    }

    fn send(&mut self, session: u64) -> Going {
        let answer = self.recorder.call(format!("(send {session} 0 7)"));
        Going { session, item: made(&answer)[0], steps: 0 }
    }

    /// Data from the client at its first out again, at the entrance. The client's own out takes nothing.
    fn enter(&mut self, session: u64) -> Going {
        let mut data = self.send(session);
        self.go(&mut data, self.way);
        Going { steps: 0, ..data }
    }

    /// A session with Data at the entrance, in a closed circle.
    fn open_and_enter(&mut self, session: u64) -> Going {
        self.open(session);
        let data = self.enter(session);
        self.set_up(session);
        data
    }

    /// Steps Data once; whether it goes on. It makes the next number, but the out again that comes too often uses its item up.
    fn step(&mut self, data: &mut Going) -> bool {
        let call = format!("(step {} {})", data.session, data.item);
        let goes_on = data.steps < OUTS * self.way;
        if goes_on {
            data.item = self.recorder.simulator.last(data.session) + 1;
            data.steps += 1;
            assert_eq!(self.recorder.call(call), format!("(made {})", data.item));
        } else {
            assert_eq!(self.recorder.call(&call), "(lost 2)");
            assert_eq!(self.recorder.call(&call), "(no 11)");
        }
        goes_on
    }

    fn go(&mut self, data: &mut Going, steps: u64) {
        for _ in 0..steps {
            assert!(self.step(data), "Data goes on");
        }
    }

    /// Steps all of the Data in turn until it is lost.
    fn lose(&mut self, mut all: Vec<Going>) {
        while !all.is_empty() {
            all.retain_mut(|data| self.step(data));
        }
    }

    /// The program has to answer all of the calls as the second implementation did.
    fn end(self) {
        check(&self.recorder.listing);
    }
}

/// Two gateways. Data waits at the entrance as item 58 for the grant 53, then goes round by four numbers for each tunnel; 187 is the
/// 33rd out again. The set-up goes on from its ack, 59.
#[test]
fn out_again_without_hops_is_lost() {
    let before = [begun(circle(2, 0), 4, 2), establishment(1, 3, 16), data(0, 54), moves(1, 57..=57)].concat();
    let round = [steps(1, &[(53, "(made 59)"), (58, "(made 60)")]), moves(1, 60..=186)].concat();
    let lost = steps(1, &[(187, "(lost 2)"), (187, "(no 11)"), (59, "(made 188)")]);
    let client = ["1 in 2 257 1", "1 out 2 288 1", "2 in 1 288 1", "2 in 3 290 2", "2 out 1 257 1"];
    let rows = [&client[..], &["2 out 3 321 2", "3 in 2 321 2", "3 out 2 290 2"]].concat();
    let set_up = steps(1, &[(188, "(made 189)"), (189, "(made 190 191)")]);
    check(&[before, round, lost, show(&rows), set_up].concat());
}

/// Two gateways, with Data at the entrance as items 58 and 62 behind the grant 53 that closes their circle.
fn two_in_a_circle_of_two() -> Listing {
    let before = [begun(circle(2, 0), 4, 2), establishment(1, 3, 16), data(0, 54), moves(1, 57..=57), data(0, 59)];
    [before.concat(), moves(1, 62..=62), steps(1, &[(53, "(made 64)")])].concat()
}

/// There, 192 is the 33rd out again, at the entrance. The tunnel by which it would go is dropped: it is lost for its hops, and only
/// the other Data goes out bare.
#[test]
fn out_again_without_hops_or_row_is_lost() {
    let round = [steps(1, &[(58, "(made 65)")]), moves(1, 65..=191)].concat();
    let dropped = exchanges(&[("(drop 1 2)", "(closed)")]);
    let lost = steps(1, &[(192, "(lost 2)"), (192, "(no 11)"), (63, "(made 193)"), (193, "(lost 1)")]);
    check(&[two_in_a_circle_of_two(), round, dropped, lost].concat());
}

/// There, with the ack 64 stepped, 189 is the 32nd out again, at the other gateway, and the tunnel by which it would go is dropped.
/// It takes the last hop, and goes bare: on the wire lost 1 is tested before lost 2.
#[test]
fn bare_without_hops_at_a_gateway() {
    let round = [steps(1, &[(64, "(made 65)"), (58, "(made 66)")]), moves(1, 66..=188)].concat();
    let dropped = exchanges(&[("(drop 1 3)", "(closed)")]);
    let bare = steps(1, &[(189, "(made 190)"), (190, "(lost 1)"), (190, "(no 11)")]);
    check(&[two_in_a_circle_of_two(), round, dropped, bare].concat());
}

/// All circles that eight establishments close, with as many hosts on the ways as there are nodes for.
#[test]
fn circles_of_two_to_seven_gateways() {
    for gateways in 2..=7 {
        let (ends, ways) = (2, gateways + 1);
        for hosts in 0..=(32 - ends - gateways) / ways {
            let mut circle = Circle::new(gateways, hosts);
            let data = circle.open_and_enter(1);
            circle.lose(vec![data]);
            circle.end();
        }
    }
}

/// Three gateways and 12 Data, which wait for the circle to be closed at each place from the entrance round to the entrance. One goes
/// on and leaves its place to another, which comes too late for the circle; then all the others go on in turn.
#[test]
fn each_data_has_its_own_count() {
    let mut circle = Circle::new(3, 0);
    circle.open(1);
    let mut all: Vec<Going> = Vec::new();
    for place in 0..3 * circle.way {
        let mut data = circle.enter(1);
        circle.go(&mut data, place);
        all.push(data);
    }
    circle.set_up(1);
    assert_eq!(circle.recorder.call("(send 1 0 7)"), "(no 13)");
    let one = all.remove(5);
    circle.lose(vec![one]);
    let mut late = circle.send(1);
    circle.go(&mut late, circle.way - 1);
    assert_eq!(circle.recorder.call(format!("(step 1 {})", late.item)), "(lost 5)");
    circle.lose(all);
    circle.end();
}

/// Beside Data the set-up goes on, to the ninth Disc, which is lost 6. Data is lost before that in some circles, and behind it in
/// others.
#[test]
fn set_up_goes_on() {
    let mut lost_before = BTreeSet::new();
    for (gateways, set_up_steps, data_steps) in (2..=7).flat_map(|gateways| [(gateways, 1, 3), (gateways, 3, 1)]) {
        let mut circle = Circle::new(gateways, 0);
        circle.open(1);
        let mut all = vec![circle.enter(1), circle.enter(1)];
        let mut goes_on = true;
        while goes_on {
            for _ in 0..set_up_steps {
                goes_on = goes_on && circle.set_up(1) != "(lost 6)";
            }
            for _ in 0..data_steps {
                all.retain_mut(|data| circle.step(data));
            }
        }
        lost_before.insert(all.is_empty());
        circle.lose(all);
        circle.end();
    }
    assert_eq!(lost_before.len(), 2);
}

/// Three sessions in one circle, each with a count of its own. One closes while its Data is under way, and has all the hops for its
/// Data when it is open again.
#[test]
fn sessions_share_no_count() {
    let mut circle = Circle::new(2, 1);
    let [mut first, mut second, third] = [1, 2, 3].map(|session| circle.open_and_enter(session));
    circle.go(&mut first, 25 * circle.way);
    circle.go(&mut second, 10 * circle.way);
    assert_eq!(circle.recorder.call("(close 2)"), "(closed)");
    let anew = circle.open_and_enter(2);
    circle.lose(vec![first, anew, third]);
    circle.end();
}

#[test]
fn random_lists_meet_every_count() {
    let (seed, count) = (setting("SEED", 19), setting("COUNT", 300));
    let met = for_each_index(count, |index| {
        let list = rounds(seed, index, LateNetwork::Yes);
        let output = program::run(&list.input());
        assert_eq!(difference_from_list(&list, &output), None, "SEED={seed}, list {index}");
        met(&list.calls)
    });
    check_met_alone(met.into_iter().flatten().collect(), &kinds(), count >= 300);
}
