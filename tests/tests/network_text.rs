//! The network given back as text, on both implementations. SEED and COUNT in the environment choose other networks and
//! lists.

use simulator_tests::compare::{check_output, check_output_of, difference, is_network};
use simulator_tests::form::Form;
use simulator_tests::lists::{input, list, LateNetwork};
use simulator_tests::network::{route_form, Network, DEFAULT};
use simulator_tests::networks::{any_network, any_node, fullest, neighbours, text, three_nodes};
use simulator_tests::random::{check_met, for_each_index, setting, Random};
use simulator_tests::simulator::Simulator;
use simulator_tests::{lines, program};
use std::collections::{BTreeMap, BTreeSet};

const NET: &[u8] = b"(net)\n";

/// Calls that are refused on every network.
const REFUSED: [&str; 13] = [
    "(node 33 host (has) (needs))",
    "(node 0 host (has) (needs))",
    "(node 1 gate (has 2 1) (needs))",
    "(node 1 gate (has) (needs 64))",
    "(node 1 gate (has) (needs)",
    "(route 33 1 2)",
    "(route 1 1 1)",
    "(route 1 0 1)",
    "(route 1 0 33)",
    "(route 0 0 1)",
    "(route 1 2 0)",
    "(net 1)",
    "",
];

/// What the random networks have to meet.
const KINDS: &str = "no route|exact routes alone|defaults alone|both|a default of each node|\
    a default beside an exact route of the same next|a default beside one of another next";

/// Asserts that these calls give the network's text, and that the same text, read by a fresh program, gives it again.
fn round_trip(name: &str, network: &Network, calls: &[String]) {
    let forms = network.forms();
    let text = text(network);
    let calls = input(calls);
    check_output_of(name, &[&calls, NET].concat(), &[&lines::run(&calls), &text[..]].concat());
    check_output_of(name, &[&text, NET].concat(), &[b"(ok)\n".repeat(forms.len()), text].concat());
}

/// Calls that give the network in any order, with refused ones between. A route that comes before its nodes is refused,
/// and comes again when all nodes are there.
fn in_any_order(random: &mut Random, network: &Network) -> Vec<String> {
    let mut simulator = Simulator::new();
    let mut calls = Vec::new();
    let mut left = network.forms();
    for _ in 0..2 {
        random.shuffle(&mut left);
        left.retain(|form| {
            let accepted = simulator.call(form.as_bytes()) == ["(ok)"];
            calls.push(form.clone());
            if accepted && random.one_in(4) {
                calls.push(refused_after(random, form));
            }
            !accepted
        });
    }
    assert_eq!(left, Vec::<String>::new(), "refused on both rounds");
    calls
}

/// A call that is refused once the form is accepted: often one that gives the same node or route otherwise.
fn refused_after(random: &mut Random, form: &str) -> String {
    match Form::read(form.as_bytes()) {
        Some(Form::Node { node, .. }) if random.one_in(2) => any_node(random, 2).form(node),
        Some(Form::Route { at, destination, .. }) if random.one_in(2) => {
            route_form(at, destination, 1 + random.below(32))
        }
        _ => random.pick(&REFUSED).to_string(),
    }
}

/// Numbers rise as numbers and not as words, routes by at before destination and a default first among its node's, whatever
/// the order of the calls.
#[test]
fn the_order_is_the_networks_own() {
    let calls = [
        "(node 10 gate (has 2 10) (needs))",
        "(node 32 host (has) (needs 0 63))",
        "(node 9 host (has 0 1 2 62 63) (needs 7))",
        "(route 32 9 10)",
        "(route 10 32 32)",
        "(route 9 32 10)",
        "(route 10 9 9)",
        "(node 1 gate (has) (needs))",
        "(route 9 10 10)",
        "(route 32 0 1)",
        "(route 10 1 9)",
        "(route 10 0 32)",
        "(route 1 0 9)",
    ];
    let text = "(node 1 gate (has) (needs))\n(node 9 host (has 0 1 2 62 63) (needs 7))\n\
                (node 10 gate (has 2 10) (needs))\n(node 32 host (has) (needs 0 63))\n\
                (route 1 0 9)\n(route 9 10 10)\n(route 9 32 10)\n(route 10 0 32)\n(route 10 1 9)\n(route 10 9 9)\n\
                (route 10 32 32)\n(route 32 0 1)\n(route 32 9 10)\n";
    let answers = "(ok)\n".repeat(calls.len());
    check_output(&[&input(&calls), NET].concat(), (answers.clone() + text).as_bytes());
    check_output(&[text.as_bytes(), NET].concat(), (answers + text).as_bytes());
}

/// Its text has no bytes, also where calls were refused before.
#[test]
fn the_empty_network() {
    round_trip("no call", &Network::default(), &[]);
    round_trip("refused calls", &Network::default(), &REFUSED.map(String::from));
    check_output(&NET.repeat(3), b"");
}

/// It is asked for so often that its text lies across the ends of any buffer.
#[test]
fn the_fullest_network() {
    let network = fullest();
    let text = text(&network);
    // 31 exact routes and a default of each node
    assert_eq!((network.nodes.len(), network.routes.len(), text.len()), (32, 32 * (31 + 1), 29_376));
    // within the 400 bytes of a line that is read
    assert_eq!(network.forms()[31].len(), 392);
    round_trip("in order", &network, &network.forms());
    let calls = in_any_order(&mut Random::new(setting("SEED", 8), 0), &network);
    round_trip("in any order", &network, &calls);
    let answers = b"(ok)\n".repeat(network.forms().len());
    check_output(&[&text, &NET.repeat(20)[..]].concat(), &[answers, text.repeat(20)].concat());
}

#[test]
fn random_networks_come_back() {
    let (seed, count) = (setting("SEED", 9), setting("COUNT", 200));
    let met = for_each_index(count, |index| {
        let mut random = Random::new(seed, index);
        let network = any_network(&mut random);
        let calls = in_any_order(&mut random, &network);
        round_trip(&format!("SEED={seed}, network {index}"), &network, &calls);
        kinds(&network)
    });
    check_met(met.into_iter().flatten(), KINDS, count >= 100);
}

/// Which routes the network has.
fn kinds(network: &Network) -> BTreeSet<String> {
    let defaults: BTreeMap<u64, u64> =
        network.nodes.keys().filter_map(|&at| Some((at, network.default_of(at)?))).collect();
    let exact: Vec<_> = network.routes.iter().filter(|((_, destination), _)| *destination != DEFAULT).collect();
    let mut kinds = BTreeSet::from([match (exact.is_empty(), defaults.is_empty()) {
        (true, true) => "no route",
        (false, true) => "exact routes alone",
        (true, false) => "defaults alone",
        (false, false) => "both",
    }]);
    if !defaults.is_empty() && defaults.len() == network.nodes.len() {
        kinds.insert("a default of each node");
    }
    for ((at, _), next) in exact {
        kinds.extend(defaults.get(at).map(|default| match default == next {
            true => "a default beside an exact route of the same next",
            false => "a default beside one of another next",
        }));
    }
    kinds.into_iter().map(String::from).collect()
}

#[test]
fn different_networks_have_different_texts() {
    let mut random = Random::new(setting("SEED", 10), 0);
    let networks = neighbours(&three_nodes(&mut random));
    // a kind and twice 64 credentials of each node, and another next hop of each route and of each default
    assert_eq!(networks.len(), 1 + 3 * (1 + 2 * 64) + 6 + 3);
    let texts = for_each_index(networks.len() as u64, |index| {
        // all are given by as many calls, so the answers before the text are the same
        program::run(&[&text(&networks[index as usize]), NET].concat())
    });
    assert_eq!(texts.iter().collect::<BTreeSet<_>>().len(), networks.len(), "two networks have one text");
}

/// The program's output without its first lines.
fn output_after(skipped: usize, input: &[u8]) -> Vec<u8> {
    program::run(input).split_inclusive(|&byte| byte == b'\n').skip(skipped).collect::<Vec<_>>().concat()
}

/// Sessions go on the network that its text gives as on the network itself.
#[test]
fn calls_are_answered_alike_on_the_text() {
    let (seed, count) = (setting("SEED", 11), setting("COUNT", 100));
    for_each_index(count, |index| {
        let list = list(seed, index, 300, LateNetwork::No);
        let (network, others) = list.calls.split_at(list.network);
        let text = output_after(network.len(), &[&input(network), NET].concat());
        let forms = text.iter().filter(|&&byte| byte == b'\n').count();
        let expected = output_after(network.len(), &list.input());
        let written = output_after(forms, &[text, input(others)].concat());
        assert_eq!(difference(&expected, &written), None, "SEED={seed}, list {index}");
    });
}

/// A list with nets put in anywhere is answered as without them, but for the network's lines.
#[test]
fn nets_change_nothing() {
    let (seed, count) = (setting("SEED", 12), setting("COUNT", 100));
    for_each_index(count, |index| {
        let list = list(seed, index, 300, LateNetwork::Yes);
        let mut random = Random::new(seed, count + index);
        let mut with_nets = list.calls.clone();
        for _ in 0..list.calls.len() / 3 {
            with_nets.insert(random.index(with_nets.len() + 1), b"(net)".to_vec());
        }
        let with_nets = input(&with_nets);
        let output = program::run(&with_nets);
        assert_eq!(difference(&lines::run(&with_nets), &output), None, "SEED={seed}, list {index}");
        let without = difference(&others(&program::run(&list.input())), &others(&output));
        assert_eq!(without, None, "SEED={seed}, list {index}");
    });
}

/// The lines that are not the network's.
fn others(output: &[u8]) -> Vec<u8> {
    output.split_inclusive(|&byte| byte == b'\n').filter(|line| !is_network(line)).collect::<Vec<_>>().concat()
}
