//! The examples, on both implementations: each listing gives the output that stands beside it, and two networks their join.

use simulator_tests::compare::{check_join, check_output};
use simulator_tests::script::here;
use simulator_tests::simulator::Simulator;
use std::fs;

#[test]
fn each_example_gives_its_output() {
    let paths = fs::read_dir(here("examples"))
        .expect("the examples are there")
        .map(|entry| entry.expect("an entry is read").path());
    let listings: Vec<_> = paths.filter(|path| path.extension().is_some_and(|extension| extension == "txt")).collect();
    assert!(!listings.is_empty());
    for listing in listings {
        let read = |path| fs::read(path).expect("the example is read");
        check_output(&read(listing.clone()), &read(listing.with_extension("out")));
    }
}

/// The join is a network's text again: read on a fresh start, it gives itself.
#[test]
fn networks_made_one() {
    let [office, house, both] =
        ["office", "house", "office-and-house"].map(|name| here(&format!("examples/{name}.net")));
    let network = fs::read(&both).expect("the example is read");
    check_join("the office and the house", [&office, &house], &network);
    let lines = network.iter().filter(|&&byte| byte == b'\n').count();
    check_output(&[&network, &b"(net)\n"[..]].concat(), &[b"(ok)\n".repeat(lines), network].concat());
}

/// The figures that the examples' README gives: session 1's steps up to its end, and session 2's.
#[test]
fn length_of_each_set_up() {
    let listing = fs::read_to_string(here("examples/set-up-length.txt")).expect("the example is read");
    let mut simulator = Simulator::new();
    let mut lengths = Vec::new();
    for call in listing.lines() {
        let answer = simulator.call(call.as_bytes()).concat();
        if ["(opened)", "(lost 3)"].contains(&&answer[..]) {
            lengths.push((answer, simulator.set_up_steps(1), simulator.set_up_steps(2)));
        }
    }
    assert_eq!(lengths, [("(opened)".to_string(), 62, 0), ("(lost 3)".to_string(), 62, 11)]);
}
