//! Random lists of calls on the program, compared with the second implementation; and the order of each show, by the
//! program's text alone. SEED and COUNT in the environment choose others.

use simulator_tests::compare::difference_from_list;
use simulator_tests::defaults;
use simulator_tests::lists::{list, LateNetwork};
use simulator_tests::program;
use simulator_tests::random::{check_met, for_each_index, setting};
use std::collections::BTreeSet;
use std::path::PathBuf;

const CALLS: usize = 400;

/// Every kind of answer, and of neighbours in a show, that lists of this length meet. Refusal 10 needs a session at its
/// last number and is met in the test of that; refusal 0 is tested by a program of its own, since this one always lends
/// enough output.
const KINDS: &str = "(ok)|(made _)|(made _ default)|(made _ _)|(lost 1)|(lost 2)|(lost 3)|(lost 4)|(lost 5)|(lost 6)|\
    (denied)|(opened)|(delivered _)|(closed)|(assoc _ in _ _ _)|(assoc _ out _ _ _)|(end)|(node _ host)|(node _ gate)|\
    (route _ 0 _)|(route _ _ _)|nothing|(no 1)|(no 2)|(no 3)|(no 4)|(no 5)|(no 6)|(no 7)|(no 8)|(no 9)|(no 11)|(no 12)|\
    (no 13)|(no 16)|(no 17)|another node|another node, lower peer|another node, lower as text|in then out|in then out, lower peer|\
    another peer|another peer, lower as text";

#[test]
fn program_answers_as_the_second_implementation() {
    let (seed, count) = (setting("SEED", 1), setting("COUNT", 2000));
    let met = for_each_index(count, |index| compare(seed, index)).into_iter().flatten();
    check_met(met, &[KINDS, defaults::CALLS, defaults::STEPS].join("|"), count >= 500);
}

/// Compares one list; gives the kinds of the program's answers and of neighbours in its shows, and what it met of defaults.
fn compare(seed: u64, index: u64) -> BTreeSet<String> {
    let list = list(seed, index, CALLS, LateNetwork::Yes);
    let mut input = list.input();
    if index % 2 == 1 && !list.calls.last().is_some_and(Vec::is_empty) {
        // without the last newline
        input.pop();
    }
    let output = program::run(&input);
    let place = format!("SEED={seed}, list {index}");
    if let Some(difference) = difference_from_list(&list, &output) {
        let path = PathBuf::from(env!("CARGO_TARGET_TMPDIR")).join(format!("list-{seed}-{index}.txt"));
        std::fs::write(&path, input).expect("the input is saved");
        panic!("{place}: {difference}\nthe input is in {}", path.display());
    }
    let text = String::from_utf8_lossy(&output);
    let mut kinds: BTreeSet<String> = text.lines().map(kind).collect();
    kinds.extend(neighbours(&text, &place));
    kinds.extend(defaults::met(&list.calls));
    if list.answers.iter().any(Vec::is_empty) {
        // the text of the empty network, which the output does not show
        kinds.insert("nothing".to_string());
    }
    kinds
}

/// The answer without its numbers, but for those that tell refusals, losses and defaults apart, and without a node's
/// credentials.
fn kind(line: &str) -> String {
    if line.starts_with("(no ") || line.starts_with("(lost ") {
        return line.to_string();
    }
    if matches!(line.split(' ').collect::<Vec<_>>()[..], ["(route", _, "0", _]) {
        return "(route _ 0 _)".to_string();
    }
    let part =
        |part: &str| if part.starts_with(|first: char| first.is_ascii_digit()) { "_".into() } else { part.to_string() };
    let head = line.split_once(" (has").map_or(line, |(head, _)| head);
    let parts: Vec<String> = head.trim_end_matches(')').split(' ').map(part).collect();
    parts.join(" ") + ")"
}

/// Asserts that the lines of each show rise strictly: by node, then in before out, then by peer. Gives the kinds of
/// neighbours: what tells them apart, and what falls between them. Two shows have `(end)` between.
fn neighbours(text: &str, place: &str) -> BTreeSet<String> {
    let mut kinds = BTreeSet::new();
    for (line, next_line) in text.lines().zip(text.lines().skip(1)) {
        let (Some(one), Some(next)) = (association(line), association(next_line)) else { continue };
        assert!(one < next, "{place}: {line} is shown before {next_line}");
        let apart = match (one.0 == next.0, one.1 == next.1) {
            (false, _) => "another node",
            (true, false) => "in then out",
            (true, true) => "another peer",
        };
        let falls = match (line > next_line, one.2 > next.2) {
            (true, _) => ", lower as text",
            (false, true) => ", lower peer",
            (false, false) => "",
        };
        kinds.insert(format!("{apart}{falls}"));
    }
    kinds
}

/// Node, whether out, and peer of a line of show: by their order, numbers rise as numbers and in comes before out.
fn association(line: &str) -> Option<(u64, bool, u64)> {
    let parts: Vec<&str> = line.strip_prefix("(assoc ")?.split(' ').collect();
    let number = |part: &str| part.parse().expect("node and peer are numbers");
    Some((number(parts[0]), parts[1] == "out", number(parts[2])))
}
