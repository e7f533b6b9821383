//! The inputs whose speed is measured: lists of calls without newlines. Each maker gives the same list every time, of
//! exactly `calls` calls, and panics where the list does not keep what its comment promises. No list has a show: each
//! call is answered by one line.

use crate::networks;
use crate::recorder::Recorder;
use simulator_tests::damage::damaged;
use simulator_tests::network::Node;
use simulator_tests::random::{setting, Random};

const CALLS: u64 = 1_000_000;
/// With fewer calls the eight sessions do not come far enough for what their lists promise.
const FEWEST_CALLS: u64 = 20_000;
/// More calls would use up the numbers of all eight sessions.
const MOST_CALLS: u64 = 7_000_000;
const SEED: u64 = 1;
const SESSIONS: std::ops::RangeInclusive<u64> = 1..=8;
/// A session's numbers end at 1,000,000, and one set-up takes far fewer than are left from here.
const NEARLY_SPENT: u64 = 999_000;
/// The most Data items of a session that pend.
pub const MOST_DATA: u64 = 12;

/// How many calls an input has: as many as CALLS says.
pub fn calls() -> usize {
    setting("CALLS", CALLS).clamp(FEWEST_CALLS, MOST_CALLS) as usize
}

/// One session on two hosts is set up in the order of its items, closed, and opened again. Nothing is refused.
pub fn two_hosts(calls: usize) -> Vec<Vec<u8>> {
    let mut recorder = Recorder::on(networks::chain(0));
    let mut session = 1;
    while recorder.calls.len() < calls {
        if recorder.simulator.last(session) > NEARLY_SPENT {
            session += 1;
        }
        recorder.set_up(session, (1, 2));
        recorder.close(session);
    }
    assert_eq!(recorder.kinds(), ["closed", "made", "ok", "opened"]);
    cut(recorder, calls)
}

/// Eight sessions over eight gateways, whichever comes next: each is set up in the order of its items, sends Data some
/// four times, either way, closes and opens again. Nothing is refused or lost.
pub fn eight_sessions(calls: usize) -> Vec<Vec<u8>> {
    let mut recorder = Recorder::on(networks::eight_gateways());
    let mut random = Random::new(SEED, 0);
    while recorder.calls.len() < calls {
        let call = next_of_eight(&recorder, &mut random);
        recorder.call(call);
    }
    assert_eq!(recorder.kinds(), ["closed", "delivered", "made", "ok", "opened"]);
    recorder.calls
}

/// The calls of `eight_sessions`, but every other line is damaged. A damaged line is most often unreadable or out of
/// range; where it is still a call, the next one follows what it did.
pub fn half_damaged(calls: usize, seed: u64) -> Vec<Vec<u8>> {
    let mut recorder = Recorder::on(networks::eight_gateways());
    let mut random = Random::new(seed, 0);
    while recorder.calls.len() < calls {
        let call = next_of_eight(&recorder, &mut random);
        let damage = recorder.calls.len() % 2 == 1;
        recorder.call(if damage { damaged(&mut random, &call) } else { call.into_bytes() });
    }
    let refused = recorder.count("no 1") + recorder.count("no 2");
    assert!((calls * 2 / 5..=calls / 2).contains(&refused), "{refused} of {calls} unreadable or out of range");
    assert!(recorder.count("opened") > 0 && recorder.count("delivered") > 0);
    recorder.calls
}

/// What a session, chosen at random, does next: it opens, steps its lowest item or, with none to step, sends or closes.
fn next_of_eight(recorder: &Recorder, random: &mut Random) -> String {
    let session = 1 + random.below(8);
    let (client, server) = networks::eight_ends()[session as usize - 1];
    if !recorder.simulator.in_use(session) {
        format!("(open {session} {client} {server})")
    } else if let Some(item) = recorder.simulator.pending(session).0.first() {
        format!("(step {session} {item})")
    } else if random.one_in(5) {
        format!("(close {session})")
    } else {
        format!("(send {session} {} {})", random.below(2), random.below(1 << 32))
    }
}

/// Eight sessions through one gateway are set up. Then each sends Data, either way in turn, until 12 items pend and two
/// more are refused; all is stepped until it is delivered, a step of each session in turn; and again.
pub fn data_flood(calls: usize) -> Vec<Vec<u8>> {
    let mut recorder = Recorder::on(networks::chain(1));
    for session in SESSIONS {
        recorder.set_up(session, (1, 3));
    }
    while recorder.calls.len() < calls {
        for (session, tag) in SESSIONS.flat_map(|session| (0..MOST_DATA + 2).map(move |tag| (session, tag))) {
            recorder.send(session, tag % 2, tag);
        }
        while step_each(&mut recorder) {}
    }
    assert_eq!(recorder.kinds(), ["delivered", "made", "no 13", "ok", "opened"]);
    assert_eq!(recorder.count("delivered"), 6 * recorder.count("no 13"));
    cut(recorder, calls)
}

/// Steps the lowest item of each session; whether there was any.
fn step_each(recorder: &mut Recorder) -> bool {
    let answers: Vec<String> = SESSIONS.filter_map(|session| recorder.step_lowest(session)).collect();
    !answers.is_empty()
}

/// Lines refused while the network may still grow, on nodes 1, 2 and 3 in a chain: each with its refusal.
const REFUSED_EARLY: [(&str, u64); 8] = [
    ("(node 1 host (has 0 5) (needs))", 3),
    ("(route 1 3 2)", 3),
    ("(route 1 4 2)", 4),
    ("(route 1 1 2)", 8),
    ("(step 8 77)", 7),
    ("(send 2 0 4294967295)", 7),
    ("(node 4 host (has 5 0) (needs))", 2),
    ("(node 4 hosts (has) (needs))", 1),
];

/// Lines refused while session 1, from 1 to 3, has begun an establishment and 12 Data pend: each with its refusal.
const REFUSED_LATE: [(&str, u64); 24] = [
    ("", 1),
    ("(step 1 03)", 1),
    ("(step 1)", 1),
    ("(step 1 12345678901)", 1),
    ("(send 1 0 77) ", 1),
    ("(open 1  1 3)", 1),
    ("(Close 1)", 1),
    ("(step 9 1)", 2),
    ("(step 1 1000001)", 2),
    ("(open 1 1 33)", 2),
    ("(send 1 2 77)", 2),
    ("(send 1 0 4294967296)", 2),
    ("(open 2 1 32)", 4),
    ("(node 9 host (has 0 5) (needs))", 5),
    ("(route 3 1 2)", 5),
    ("(open 1 1 3)", 6),
    ("(step 8 1)", 7),
    ("(send 2 0 77)", 7),
    ("(close 3)", 7),
    ("(open 2 3 3)", 8),
    ("(open 2 1 2)", 9),
    ("(step 1 999999)", 11),
    ("(step 1 3)", 12),
    ("(send 1 1 77)", 13),
];

/// Lines that are refused, after the few calls that bring about what they are refused for: every refusal of document
/// 01's table but 0 and 10, a quarter of the lines before the first open and the rest after it.
pub fn refusals(calls: usize) -> Vec<Vec<u8>> {
    let mut recorder = Recorder::on(networks::chain(1));
    let mut random = Random::new(SEED, 0);
    refuse(&mut recorder, &mut random, &REFUSED_EARLY, calls / 4);
    recorder.open(1, (1, 3));
    for item in 1..=2 {
        recorder.step(1, item);
    }
    for tag in 0..MOST_DATA {
        recorder.send(1, 0, tag);
    }
    refuse(&mut recorder, &mut random, &REFUSED_LATE, calls);
    recorder.calls
}

/// Makes calls from these lines until there are so many calls in all; each line is refused with the number beside it.
fn refuse(recorder: &mut Recorder, random: &mut Random, lines: &[(&str, u64)], calls: usize) {
    while recorder.calls.len() < calls {
        let (line, refusal) = random.pick(lines);
        assert_eq!(recorder.call(line), format!("(no {refusal})"), "{line}");
    }
}

/// Node forms with some 48 credentials of 64 on either list. The first 32 are accepted; of the rest one half is refused
/// as double and, after an open, the other as late.
pub fn node_forms(calls: usize) -> Vec<Vec<u8>> {
    let mut recorder = Recorder::default();
    let mut random = Random::new(SEED, 0);
    for place in 0..calls as u64 - 1 {
        if place == calls as u64 / 2 {
            recorder.open(1, (1, 2));
        }
        let mut credentials = || (0..64).filter(|_| !random.one_in(4)).collect();
        let (has, needs) = (credentials(), credentials());
        recorder.call(Node { gateway: place % 8 == 7, has, needs }.form(1 + place % 32));
    }
    assert_eq!(recorder.kinds(), ["made", "no 3", "no 5", "ok"]);
    assert_eq!(recorder.count("ok"), 32);
    recorder.calls
}

/// The first `calls` calls: any list may end where one likes.
fn cut(mut recorder: Recorder, calls: usize) -> Vec<Vec<u8>> {
    recorder.calls.truncate(calls);
    recorder.calls
}
