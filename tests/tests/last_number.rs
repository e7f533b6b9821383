//! A session driven to its last number, on the program and on the second implementation: refusal 10, its place in the
//! order of refusals, the set-up that it stops (#103), and drops, which it does not refuse (#109).

use simulator_tests::compare::difference;
use simulator_tests::listing::{exchanges, Listing};
use simulator_tests::lists::input;
use simulator_tests::program;
use simulator_tests::simulator::Simulator;

const NETWORK: &str = "(node 1 host (has) (needs))\n(node 2 host (has) (needs))\n(node 3 gate (has) (needs))\n\
                       (route 1 2 2)\n(route 2 0 1)\n";

/// Drives session 1, closed, to this last number, a multiple of six: an open, three steps and a close take six numbers.
fn drive_to(last: u64) -> String {
    let cycle = |first: u64| {
        let (second, fourth) = (first + 1, first + 3);
        format!("(open 1 1 2)\n(step 1 {first})\n(step 1 {second})\n(step 1 {fourth})\n(close 1)\n")
    };
    assert_eq!(last % 6, 0);
    (1..last).step_by(6).map(cycle).collect()
}

/// Asserts that the program answers these calls as written after session 1 was driven to this last number, and that its
/// whole output is the second implementation's, which is given back.
fn check_after(last: u64, listing: &[(String, String)]) -> Simulator {
    let calls: String = listing.iter().map(|(call, _)| format!("{call}\n")).collect();
    let calls = [NETWORK, &drive_to(last), &calls].concat();
    let output = program::run(calls.as_bytes());
    let mut simulator = Simulator::new();
    let answers: Vec<String> = calls.lines().flat_map(|call| simulator.call(call.as_bytes())).collect();
    assert_eq!(difference(&input(&answers), &output), None);
    let output = String::from_utf8(output).expect("the output is text");
    let expected: String = listing.iter().map(|(_, answer)| format!("{answer}\n")).collect();
    let written = &output[output.len() - expected.len()..];
    assert_eq!(difference(expected.as_bytes(), written.as_bytes()), None);
    simulator
}

/// Sends that make these numbers.
fn sends(numbers: std::ops::RangeInclusive<u64>) -> Listing {
    numbers.map(|number| (format!("(send 1 0 {number})"), format!("(made {number})"))).collect()
}

/// Steps, each of the item this far below the number that it makes.
fn steps_below(below: u64, numbers: std::ops::RangeInclusive<u64>) -> Listing {
    numbers.map(|number| (format!("(step 1 {})", number - below), format!("(made {number})"))).collect()
}

/// What session 1, in use and spent, answers from its close on; another session goes on.
fn close_of_spent() -> Listing {
    exchanges(&[
        ("(open 1 1 2)", "(no 6)"),
        ("(close 1)", "(closed)"),
        ("(open 1 1 33)", "(no 2)"),
        ("(open 1 1 9)", "(no 4)"),
        ("(open 1 1 1)", "(no 8)"),
        ("(open 1 1 3)", "(no 9)"),
        ("(open 1 1 2)", "(no 10)"),
        ("(open 1 1 2)", "(no 10)"),
        ("(step 1 999999)", "(no 7)"),
        ("(send 1 0 7)", "(no 7)"),
        ("(close 1)", "(no 7)"),
        ("(show)", "(end)"),
        ("(open 2 1 2)", "(made 1)"),
        ("(step 2 1)", "(made 2)"),
    ])
}

/// At 999,998 a step writes one item; 11, 12 and 13 come before 10.
#[test]
fn step_to_999999() {
    let begin = exchanges(&[
        ("(open 1 1 2)", "(made 999973)"),
        ("(step 1 999973)", "(made 999974)"),
        ("(step 1 999974)", "(made 999975 999976)"),
        ("(step 1 999976)", "(made 999977 999978)"),
    ]);
    let end = exchanges(&[
        ("(send 1 0 7)", "(no 13)"),
        ("(step 1 999975)", "(no 12)"),
        ("(step 1 999999)", "(no 11)"),
        ("(step 1 999977)", "(made 999999)"),
        ("(step 1 999977)", "(no 11)"),
        ("(step 1 1000000)", "(no 11)"),
        ("(step 1 1000001)", "(no 2)"),
        ("(step 1 999975)", "(no 12)"),
        ("(step 1 999978)", "(no 12)"),
        ("(send 1 0 7)", "(no 13)"),
        ("(step 1 999999)", "(no 10)"),
        ("(step 1 999998)", "(no 10)"),
        ("(step 1 999999)", "(no 10)"),
    ]);
    let calls = [begin, sends(999_979..=999_990), steps_below(12, 999_991..=999_998), end, close_of_spent()].concat();
    check_after(999_972, &calls);
}

/// At 999,998 a step begins an establishment and writes the last two numbers.
#[test]
fn step_to_1000000() {
    let calls = exchanges(&[
        ("(open 1 1 2)", "(made 999997)"),
        ("(step 1 999997)", "(made 999998)"),
        ("(step 1 999998)", "(made 999999 1000000)"),
        ("(step 1 999998)", "(no 11)"),
        ("(step 1 999999)", "(no 12)"),
        ("(step 1 1000000)", "(no 10)"),
        ("(step 1 1000000)", "(no 10)"),
        ("(send 1 0 7)", "(no 10)"),
        ("(send 1 2 7)", "(no 2)"),
        ("(show)", "(end)"),
    ]);
    check_after(999_996, &[calls, close_of_spent()].concat());
}

/// At 999,998 an item of a set-up can be stepped; once the numbers are spent it stays, and its refused steps are not counted.
#[test]
fn set_up_of_a_spent_session_stays() {
    let begin = exchanges(&[("(open 1 1 2)", "(made 999997)"), ("(step 1 999997)", "(made 999998)")]);
    let spend = exchanges(&[("(step 1 999998)", "(made 999999 1000000)")]);
    let refused =
        exchanges(&[("(step 1 1000000)", "(no 10)"), ("(step 1 999999)", "(no 12)"), ("(step 1 1000000)", "(no 10)")]);
    let state = |simulator: Simulator| (simulator.spent(1), simulator.active(1), simulator.set_up_steps(1));
    assert_eq!(state(check_after(999_996, &begin)), (false, vec![999_998], 1));
    assert_eq!(state(check_after(999_996, &[begin, spend, refused].concat())), (true, vec![1_000_000], 2));
}

/// At 999,998 a send is accepted; then a step is refused though it would only deliver and write nothing.
#[test]
fn send_to_999999() {
    let begin = exchanges(&[("(open 1 1 2)", "(made 999985)")]);
    let end = exchanges(&[
        ("(step 1 999989)", "(no 10)"),
        ("(step 1 999999)", "(no 10)"),
        ("(send 1 1 7)", "(no 10)"),
        ("(step 1 999989)", "(no 10)"),
    ]);
    let received = [sends(999_986..=999_986), steps_below(1, 999_987..=999_989)].concat();
    check_after(999_984, &[begin, received, sends(999_990..=999_999), end, close_of_spent()].concat());
}

/// At 999,998 a default moves a packet, and no longer once the numbers are spent.
#[test]
fn default_to_999999() {
    let calls = exchanges(&[
        ("(open 1 1 2)", "(made 999985)"),
        ("(step 1 999985)", "(made 999986)"),
        ("(step 1 999986)", "(made 999987 999988)"),
        ("(step 1 999988)", "(made 999989 999990)"),
        ("(step 1 999989)", "(made 999991)"),
        ("(send 1 1 7)", "(made 999992)"),
        ("(step 1 999992)", "(made 999993)"),
    ]);
    let end = exchanges(&[
        ("(step 1 999991)", "(made 999999 default)"),
        ("(step 1 999993)", "(no 10)"),
        ("(step 1 999999)", "(no 10)"),
        ("(step 1 999991)", "(no 11)"),
    ]);
    check_after(999_984, &[calls, sends(999_994..=999_998), end, close_of_spent()].concat());
}

/// At 999,998 an open is accepted, and the session it opens can only close.
#[test]
fn open_to_999999() {
    let calls = exchanges(&[
        ("(open 1 1 2)", "(made 999997)"),
        ("(send 1 0 7)", "(made 999998)"),
        ("(close 1)", "(closed)"),
        ("(open 1 1 2)", "(made 999999)"),
        ("(step 1 999999)", "(no 10)"),
        ("(step 1 999998)", "(no 11)"),
        ("(send 1 0 7)", "(no 10)"),
    ]);
    check_after(999_996, &[calls, close_of_spent()].concat());
}

/// A drop writes no item, so spent numbers are nothing to it: 16 while est 1000000 can no longer be stepped, and 17 above it.
#[test]
fn busy_for_ever_at_1000000() {
    let calls = exchanges(&[
        ("(open 1 1 2)", "(made 999997)"),
        ("(step 1 999997)", "(made 999998)"),
        ("(drop 1 1)", "(no 17)"),
        ("(step 1 999998)", "(made 999999 1000000)"),
        ("(step 1 1000000)", "(no 10)"),
        ("(drop 1 1)", "(no 16)"),
        ("(drop 1 2)", "(no 17)"),
    ]);
    check_after(999_996, &[calls, close_of_spent()].concat());
}

/// The tunnel of a spent session is dropped, and only that: its Data pends. Items of node 2 are moved by default.
#[test]
fn drop_at_999999() {
    let begin = exchanges(&[
        ("(open 1 1 2)", "(made 999973)"),
        ("(step 1 999973)", "(made 999974)"),
        ("(step 1 999974)", "(made 999975 999976)"),
        ("(step 1 999976)", "(made 999977 999978)"),
        ("(step 1 999977)", "(made 999979)"),
        ("(step 1 999979)", "(made 999980 default)"),
    ]);
    let done = exchanges(&[
        ("(step 1 999991)", "(made 999992)"),
        ("(step 1 999992)", "(made 999993 default)"),
        ("(step 1 999993)", "(made 999994)"),
        ("(step 1 999994)", "(opened)"),
    ]);
    let end = exchanges(&[
        ("(step 1 999995)", "(no 10)"),
        ("(drop 1 1)", "(closed)"),
        ("(show)", "(end)"),
        ("(drop 1 1)", "(no 17)"),
        ("(step 1 999995)", "(no 10)"),
        ("(step 1 999994)", "(no 11)"),
    ]);
    let set_up = [begin, steps_below(1, 999_981..=999_991), done].concat();
    check_after(999_972, &[set_up, sends(999_995..=999_999), end, close_of_spent()].concat());
}
