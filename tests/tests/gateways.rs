//! Set-up through a chain of gateways, and data both ways after it, on both implementations.

use simulator_tests::compare::check;
use simulator_tests::listing::chain;
use simulator_tests::recorder::{Recorder, NONE};

#[test]
fn up_to_seven_gateways_open_and_deliver() {
    for gateways in 0..=7 {
        let last = gateways + 2;
        let mut recorder = Recorder::after(&chain(last));
        recorder.call(format!("(open 1 1 {last})"));
        assert_eq!(recorder.drive(1, NONE), "(opened)", "{gateways} gateways");
        recorder.call("(send 1 0 70)");
        assert_eq!(recorder.drive(1, NONE), "(delivered 70)", "{gateways} gateways");
        recorder.call("(send 1 1 71)");
        assert_eq!(recorder.drive(1, NONE), "(delivered 71)", "{gateways} gateways");
        // in and out at either end of each tunnel
        let shown = recorder.call("(show)");
        assert_eq!(shown.lines().count() as u64, 4 * (gateways + 1) + 1, "{gateways} gateways");
        check(&recorder.listing);
    }
}

/// The ninth establishment is not begun; a close lets the next set-up begin again from the first.
#[test]
fn eight_gateways_are_too_many() {
    let mut recorder = Recorder::after(&chain(10));
    for _ in 0..2 {
        recorder.call("(open 1 1 10)");
        assert_eq!(recorder.drive(1, NONE), "(lost 6)");
        recorder.call("(close 1)");
    }
    recorder.call("(open 1 10 1)");
    assert_eq!(recorder.drive(1, NONE), "(lost 6)");
    check(&recorder.listing);
}

/// Every session holds as many rows and items as it ever can: eight establishments, and 12 items of data beside the
/// set-up's own.
#[test]
fn eight_sessions_at_their_fullest() {
    let mut recorder = Recorder::after(&chain(9));
    // items 2 to 13 are the data
    let data = 2..=13;
    for session in 1..=8 {
        recorder.call(format!("(open {session} 1 9)"));
        for item in data.clone() {
            recorder.call(format!("(send {session} {} {item})", item % 2));
        }
        assert_eq!(recorder.drive(session, data.clone()), "(opened)");
        assert_eq!(recorder.call(format!("(send {session} 0 1)")), "(no 13)");
    }
    let shown = recorder.call("(show)");
    assert_eq!(shown.lines().filter(|line| line.ends_with(" 8)")).count(), 32);
    for session in 1..=8 {
        assert_eq!(recorder.drive(session, NONE), "(delivered 13)");
    }
    recorder.call("(show)");
    check(&recorder.listing);
}
