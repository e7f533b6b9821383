//! Up reads the rows at the moment of its step (#107), on the program: of the calls next to that step only a grant at its node and
//! a drop of rows there (#109) change what is answered. All others may come before it or behind it; where both make items, these
//! change their numbers. SEED and COUNT in the environment choose other lists.

use simulator_tests::arrivals::stepped;
use simulator_tests::calculus::{Item, Row};
use simulator_tests::compare::made;
use simulator_tests::form::{Form, SESSIONS};
use simulator_tests::lists::{drops, input, list, LateNetwork, List};
use simulator_tests::program;
use simulator_tests::random::{check_met, for_each_index, setting, Random};
use simulator_tests::simulator::Simulator;
use std::collections::BTreeSet;

const CALLS: usize = 400;
const GRANT: &str = "a grant at its node";
const DROP: &str = "a drop at its node";
const KINDS: &str = "a call of another|another step of its session|another drop of its session|a grant at its node|\
    a grant at its node that changes it|a drop at its node|a drop at its node that changes it";

/// What a call is to the step of an item of up that pends before it. None where they are one step, and where the session's call may
/// depend on that step by more than rows: on the items that it makes or uses up.
fn relation(simulator: &Simulator, session: u64, number: u64, call: &[u8]) -> Option<&'static str> {
    let Some(&Item::Up { at: node, .. }) = simulator.item(session, number) else { return None };
    let form = Form::read(call);
    if form.as_ref().and_then(Form::session) != Some(session) {
        return Some("a call of another");
    }
    if let Some(Form::Drop { establishment, .. }) = form {
        let goes = |row: &Row| row.establishment == establishment && row.association.node == node;
        let there = simulator.rows(session).iter().any(goes);
        return Some(if there { DROP } else { "another drop of its session" });
    }
    match stepped(simulator, call)? {
        (_, other, item) if other == number || item.waits() => None,
        (_, _, Item::Grant { at, .. }) if at == node => Some(GRANT),
        _ => Some("another step of its session"),
    }
}

/// The calls of the list before which an item of up pends: what each is to its step, the place of the call, and the step.
fn neighbours(list: &List) -> Vec<(&'static str, usize, String)> {
    let mut simulator = Simulator::new();
    let mut found = Vec::new();
    for (place, call) in list.calls.iter().enumerate() {
        let pending = |session| simulator.pending(session).0.into_iter().map(move |item| (session, item));
        found.extend(SESSIONS.flat_map(pending).filter_map(|(session, item)| {
            relation(&simulator, session, item, call).map(|kind| (kind, place, format!("(step {session} {item})")))
        }));
        simulator.call(call);
    }
    found
}

/// What the program answers to the step and to the call at this place: with the step first, and with the call first.
fn in_both_orders(list: &List, place: usize, step: &str) -> [(String, String); 2] {
    let lines_before = list.answers[..place].concat().len();
    let answers = |last: [&[u8]; 2]| {
        let output = program::run(&[input(&list.calls[..place]), input(&last)].concat());
        let output = String::from_utf8(output).expect("the output is text");
        output.lines().skip(lines_before).map(String::from).collect::<Vec<_>>()
    };
    let (step, call) = (step.as_bytes(), &list.calls[place][..]);
    let (step_first, call_first) = (answers([step, call]), answers([call, step]));
    let (first, behind) = step_first.split_first().expect("the step is answered");
    let (last, ahead) = call_first.split_last().expect("the step is answered");
    [(first.clone(), behind.join("\n")), (last.clone(), ahead.join("\n"))]
}

/// The two answers, with the numbers that they make apart, in order.
fn up_to_numbers((step, call): &(String, String)) -> (String, String, Vec<u64>) {
    let without = |answer: &str| {
        made(answer).iter().fold(answer.to_string(), |text, number| text.replacen(&number.to_string(), "_", 1))
    };
    let mut numbers = [made(step), made(call)].concat();
    numbers.sort();
    (without(step), without(call), numbers)
}

/// For one call of each kind in a list, tries both orders of it and the step of up. What was met.
fn try_neighbours(seed: u64, index: u64) -> BTreeSet<String> {
    let list = match index % 4 {
        3 => drops(seed, index, LateNetwork::No),
        _ => list(seed, index, CALLS, LateNetwork::No),
    };
    let mut found = neighbours(&list);
    Random::new(seed, index).shuffle(&mut found);
    let mut met = BTreeSet::new();
    found.retain(|(kind, ..)| met.insert(kind.to_string()));
    for (kind, place, step) in found {
        let orders = in_both_orders(&list, place, &step);
        let [step_first, call_first] = orders.each_ref().map(up_to_numbers);
        if step_first != call_first {
            assert!([GRANT, DROP].contains(&kind), "SEED={seed}, list {index}, call {place} and {step}: {orders:?}");
            met.insert(format!("{kind} that changes it"));
        }
    }
    met
}

#[test]
fn only_a_grant_or_a_drop_at_its_node_changes_an_arrival() {
    let (seed, count) = (setting("SEED", 18), setting("COUNT", 300));
    let met = for_each_index(count, |index| try_neighbours(seed, index));
    check_met(met.into_iter().flatten(), KINDS, count >= 300);
}
