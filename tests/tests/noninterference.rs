//! Demand 3 on the program: what a session is answered in a mix of sessions is what it is answered alone, and its
//! numbers are 1, 2, 3 and so on. SEED and COUNT in the environment choose other lists.

use simulator_tests::compare::{is_network, made};
use simulator_tests::defaults;
use simulator_tests::drops;
use simulator_tests::form::Form;
use simulator_tests::hops;
use simulator_tests::lists::{self, input, list, rounds, LateNetwork, List};
use simulator_tests::program;
use simulator_tests::random::{check_met, for_each_index, setting};
use std::collections::BTreeSet;

const CALLS: usize = 500;

/// What lists meet where sessions share them.
type Met = fn(&[Vec<u8>]) -> BTreeSet<String>;

#[test]
fn a_session_is_answered_as_if_alone() {
    let seed = setting("SEED", 3);
    check(seed, 300, |index| list(seed, index, CALLS, LateNetwork::No), (defaults::met, defaults::STEPS));
}

/// In a circle of gateways each session's Data has its own count of hops, and its own rows of several establishments.
#[test]
fn a_session_in_a_circle_is_answered_as_if_alone() {
    let seed = setting("SEED", 20);
    let kinds = [&hops::kinds(), drops::IN_A_CIRCLE].join("|");
    let met = |calls: &[Vec<u8>]| &hops::met(calls) | &drops::met(calls);
    check(seed, 200, |index| rounds(seed, index, LateNetwork::No), (met, &kinds));
}

/// Sessions on the same ways drop tunnels of which others use the associations.
#[test]
fn a_session_that_drops_tunnels_is_answered_as_if_alone() {
    let seed = setting("SEED", 22);
    let kinds = [drops::ACCEPTED, drops::REFUSED, drops::PACKETS].join("|");
    check(seed, 200, |index| lists::drops(seed, index, LateNetwork::No), (drops::met, &kinds));
}

/// Compares each session of so many lists, or of COUNT. The lists that sessions share have to meet all of the kinds.
fn check(seed: u64, default: u64, list: impl Fn(u64) -> List + Sync, (met, kinds): (Met, &str)) {
    let count = setting("COUNT", default);
    let compared = for_each_index(count, |index| {
        let list = list(index);
        match compare(&list, &format!("SEED={seed}, list {index}")) {
            0 => Default::default(),
            shared => (shared, met(&list.calls)),
        }
    });
    let (shared, met): (Vec<usize>, Vec<_>) = compared.into_iter().unzip();
    let shared: usize = shared.iter().sum();
    // of a few lists, all may have one session
    assert!(count < 100 || shared as u64 > 50 * count, "few calls of sessions that share a list: {shared}");
    check_met(met.into_iter().flatten(), kinds, count >= default);
}

/// Compares each session of one list; gives how many calls were of sessions that shared it with others.
fn compare(list: &List, place: &str) -> usize {
    let mixed = answers(&list.calls, &program::run(&list.input()));
    let sessions: Vec<Vec<usize>> = (1..=8).map(|session| own(list, session)).filter(|own| !own.is_empty()).collect();
    for own in &sessions {
        let mut calls = list.calls[..list.network].to_vec();
        calls.extend(own.iter().map(|&call| list.calls[call].clone()));
        let alone = answers(&calls, &program::run(&input(&calls)));
        for (&call, answer) in own.iter().zip(&alone[list.network..]) {
            let text = String::from_utf8_lossy(&list.calls[call]);
            assert_eq!(&mixed[call], answer, "{place}, call {call}: {text}");
        }
        assert_numbers_in_order(own.iter().map(|&call| &mixed[call]), place);
    }
    if sessions.len() > 1 {
        sessions.concat().len()
    } else {
        0
    }
}

/// The indexes of the session's own calls: the forms that name it, whatever their other numbers.
fn own(list: &List, session: u64) -> Vec<usize> {
    let names = |call: &usize| Form::read(&list.calls[*call]).and_then(|form| form.session()) == Some(session);
    (list.network..list.calls.len()).filter(names).collect()
}

/// The answer to each call. Show's lines end with `(end)`; net's are nobody's and left out.
fn answers(calls: &[Vec<u8>], output: &[u8]) -> Vec<String> {
    let output = String::from_utf8(output.to_vec()).expect("the output is text");
    let lines: Vec<&str> = output.lines().filter(|line| !is_network(line)).collect();
    let is_association = |line: &&str| line.starts_with("(assoc ");
    assert!(!lines.last().is_some_and(is_association), "the output ends within a show");
    let mut others = lines.chunk_by(|line, _| is_association(line)).map(<[&str]>::concat);
    let answer = |call: &Vec<u8>| match Form::read(call) {
        Some(Form::Net) => String::new(),
        _ => others.next().expect("each call but net has an answer"),
    };
    let answers = calls.iter().map(answer).collect();
    assert_eq!(others.next(), None, "one answer a call");
    answers
}

fn assert_numbers_in_order<'a>(answers: impl Iterator<Item = &'a String>, place: &str) {
    let numbers: Vec<u64> = answers.flat_map(|answer| made(answer)).collect();
    assert!(numbers.iter().copied().eq(1..=numbers.len() as u64), "{place}: {numbers:?}");
}
