//! Two networks made one (#106), on the program and the second implementation. SEED and COUNT in the environment choose other
//! networks.

use simulator_tests::compare::{check_join, joined};
use simulator_tests::damage::damaged;
use simulator_tests::network::{Network, DEFAULT};
use simulator_tests::networks::{any_network, fullest, fullest_in_halves, neighbours, text, three_nodes, Cut};
use simulator_tests::random::{check_met, for_each_index, setting, Random};
use simulator_tests::small::Folder;
use std::collections::BTreeSet;

const CLASH: &[u8] = b"(no 14)\n";
const UNSORTED: &[u8] = b"(no 15)\n";

/// A network, another that shares two nodes and a route with it, and both.
const OFFICE: &str =
    "(node 1 host (has) (needs 5))\n(node 2 gate (has 5 63) (needs))\n(node 10 host (has 0 7) (needs 0))\n\
    (route 1 0 2)\n(route 1 10 2)\n(route 2 10 10)\n";
const HOUSE: &str = "(node 1 host (has) (needs 5))\n(node 2 gate (has 5 63) (needs))\n(node 3 host (has) (needs))\n\
    (route 1 0 2)\n(route 2 0 3)\n(route 2 1 1)\n";
const BOTH: &str = "(node 1 host (has) (needs 5))\n(node 2 gate (has 5 63) (needs))\n(node 3 host (has) (needs))\n\
    (node 10 host (has 0 7) (needs 0))\n(route 1 0 2)\n(route 1 10 2)\n(route 2 0 3)\n(route 2 1 1)\n(route 2 10 10)\n";

/// What the joins of random halves have to meet.
const KINDS: &str = "a shared node|a shared route|a shared default|nothing shared|an empty half|two empty halves|\
    an exact route beside the other's default|all nodes|clash of kind|clash of has|clash of needs|clash of next hop|\
    clash of default|unsorted first|unsorted second|damaged and accepted";

/// Two files, written anew for each join.
struct Files(Folder);

impl Files {
    fn new() -> Self {
        Files(Folder::temporary())
    }

    /// Asserts that both implementations write this for files of these texts, whichever comes first.
    fn check(&self, name: &str, one: &[u8], other: &[u8], expected: &[u8]) {
        self.0.write("one", one);
        self.0.write("other", other);
        check_join(name, [&self.0.path("one"), &self.0.path("other")], expected);
    }

    /// Asserts that the program writes what the second implementation does, whichever text comes first, and gives it.
    fn compare(&self, name: &str, one: &[u8], other: &[u8]) -> Vec<u8> {
        let expected = joined(Some(one), Some(other));
        self.check(name, one, other, &expected);
        expected
    }
}

/// A join is its own file again: each file with itself, with none, and with the join.
fn check_again(files: &Files, name: &str, halves: [&[u8]; 2], whole: &[u8]) {
    for text in halves.into_iter().chain([whole]) {
        files.check(name, text, text, text);
        files.check(name, text, b"", text);
        files.check(name, text, whole, whole);
    }
}

/// Random networks are cut in two with overlaps, and the halves joined as they are, with a clash or damaged.
#[test]
fn random_halves() {
    let (seed, count) = (setting("SEED", 16), setting("COUNT", 400));
    let met = for_each_index(count, |index| {
        let mut random = Random::new(seed, index);
        let network = any_network(&mut random);
        let cut = Cut::new(&mut random, network);
        let name = format!("SEED={seed}, network {index}");
        match random.below(4) {
            0 => with_a_clash(&mut random, &name, cut),
            1 => damaged_half(&mut random, &name, &cut),
            _ => as_they_are(&name, &cut),
        }
    });
    check_met(met.into_iter().flatten(), KINDS, count >= 200);
}

/// The join of the halves is the whole.
fn as_they_are(name: &str, cut: &Cut) -> BTreeSet<String> {
    let files = Files::new();
    let [first, second] = cut.halves.each_ref().map(text);
    let whole = text(&cut.whole);
    files.check(name, &first, &second, &whole);
    check_again(&files, name, [&first, &second], &whole);
    kinds(cut)
}

/// What the halves have of each other.
fn kinds(cut: &Cut) -> BTreeSet<String> {
    let Cut { whole, halves: [first, second] } = cut;
    let shared =
        [!cut.shared_nodes().is_empty(), !cut.shared_routes(false).is_empty(), !cut.shared_routes(true).is_empty()];
    let sides = [(first, second), (second, first)];
    let beside = |(one, other): (&Network, &Network)| {
        one.routes
            .keys()
            .any(|&(at, to)| to != DEFAULT && one.default_of(at).is_none() && other.default_of(at).is_some())
    };
    let empty = [first, second].iter().filter(|half| half.nodes.is_empty()).count();
    let kinds = [
        ("a shared node", shared[0]),
        ("a shared route", shared[1]),
        ("a shared default", shared[2]),
        ("nothing shared", empty == 0 && !shared[0]),
        ("an empty half", empty == 1),
        ("two empty halves", empty == 2),
        ("an exact route beside the other's default", sides.into_iter().any(beside)),
        ("all nodes", whole.nodes.len() == 32),
    ];
    kinds.into_iter().filter(|(_, met)| *met).map(|(kind, _)| kind.to_string()).collect()
}

/// One thing that both halves have is another in the second.
fn with_a_clash(random: &mut Random, name: &str, mut cut: Cut) -> BTreeSet<String> {
    let Some(kind) = cut.put_clash(random) else { return BTreeSet::new() };
    let [first, second] = cut.halves.each_ref().map(text);
    Files::new().check(name, &first, &second, CLASH);
    [format!("clash of {kind}")].into()
}

/// A half with one fault, which may be a network's text still.
fn damaged_half(random: &mut Random, name: &str, cut: &Cut) -> BTreeSet<String> {
    let mut texts = cut.halves.each_ref().map(text);
    let side = random.index(2);
    texts[side] = with_a_fault(random, &texts[side]);
    let [first, second] = &texts;
    let kind = match &Files::new().compare(name, first, second)[..] {
        CLASH => "damaged and a clash",
        UNSORTED => ["unsorted first", "unsorted second"][side],
        _ => "damaged and accepted",
    };
    [kind.to_string()].into()
}

/// The text with a line damaged, doubled, left out or moved, or with a byte at its end or without the last.
fn with_a_fault(random: &mut Random, text: &[u8]) -> Vec<u8> {
    let mut lines: Vec<Vec<u8>> = text.split_inclusive(|&byte| byte == b'\n').map(<[u8]>::to_vec).collect();
    if lines.is_empty() {
        return vec![random.pick(b"\n\r (")];
    }
    let (from, to) = (random.index(lines.len()), random.index(lines.len()));
    match random.below(6) {
        0 | 1 => {
            let line = String::from_utf8_lossy(&lines[from]).into_owned();
            lines[from] = [damaged(random, line.trim_end()), vec![b'\n']].concat();
        }
        2 => lines.insert(to, lines[from].clone()),
        3 => drop(lines.remove(from)),
        4 => lines.swap(from, to),
        _ if random.one_in(2) => lines.push(vec![random.pick(b"\n\r (")]),
        _ => drop(lines.last_mut().and_then(Vec::pop)),
    }
    lines.concat()
}

#[test]
fn each_part_of_either() {
    let files = Files::new();
    files.check("office and house", OFFICE.as_bytes(), HOUSE.as_bytes(), BOTH.as_bytes());
    check_again(&files, "office and house", [OFFICE.as_bytes(), HOUSE.as_bytes()], BOTH.as_bytes());
    files.check("two empty files", b"", b"", b"");
}

/// Each network that differs from another in one kind, one credential or one next hop, of a default too, clashes with it.
#[test]
fn each_clash() {
    let networks = neighbours(&three_nodes(&mut Random::new(setting("SEED", 17), 0)));
    let (network, others) = networks.split_first().expect("the network itself comes first");
    // as in the test of the texts
    assert_eq!(others.len(), 3 * (1 + 2 * 64) + 6 + 3);
    for_each_index(others.len() as u64, |index| {
        Files::new().check("a neighbour", &text(network), &text(&others[index as usize]), CLASH);
    });
}

/// Whatever their next hops are; and routes of one node for two destinations, or of two nodes for one, are no clash either.
#[test]
fn a_default_beside_an_exact_route_is_no_clash() {
    let nodes = "(node 1 host (has) (needs))\n(node 2 host (has) (needs))\n(node 3 host (has) (needs))\n";
    let files = Files::new();
    let check = |one: &str, other: &str| {
        let [first, second, both] = [one, other, &[one, other].concat()].map(|routes| [nodes, routes].concat());
        files.check(other, first.as_bytes(), second.as_bytes(), both.as_bytes());
    };
    check("(route 1 0 2)\n", "(route 1 3 2)\n");
    check("(route 1 0 2)\n", "(route 1 3 3)\n");
    check("(route 1 0 2)\n", "(route 1 2 3)\n(route 1 3 3)\n");
    check("(route 1 2 2)\n", "(route 1 3 2)\n");
    check("(route 1 3 2)\n", "(route 2 3 1)\n");
    check("(route 1 0 2)\n", "(route 2 0 1)\n");
}

/// Bytes that are put for others.
const BYTES: &[u8] = b"0127 \n\r\t()a-\0\xff";

/// The text with each byte left out, doubled, and changed to others.
fn with_changed_bytes(text: &[u8]) -> Vec<Vec<u8>> {
    let mut all = Vec::new();
    for (at, byte) in text.iter().enumerate() {
        let with = |bytes: &[u8]| [&text[..at], bytes, &text[at + 1..]].concat();
        all.extend([with(&[]), with(&[*byte; 2])]);
        all.extend(BYTES.iter().filter(|&other| other != byte).map(|&other| with(&[other])));
    }
    all
}

/// The text with each line left out, moved to each place, and doubled there.
fn with_changed_lines(text: &[u8]) -> Vec<Vec<u8>> {
    let lines: Vec<_> = text.split_inclusive(|&byte| byte == b'\n').collect();
    let mut all = Vec::new();
    for from in 0..lines.len() {
        let (before, line, after) = (&lines[..from], lines[from], &lines[from + 1..]);
        let others = [before, after].concat();
        all.push(others.concat());
        for rest in [&others, &lines] {
            all.extend((0..=rest.len()).map(|to| [&rest[..to], &[line], &rest[to..]].concat().concat()));
        }
    }
    all
}

/// Joins each with the house, and has to meet every outcome.
fn check_each(changed: &[Vec<u8>]) {
    let met = for_each_index(changed.len() as u64, |index| {
        let changed = &changed[index as usize];
        let name = format!("{:?}", String::from_utf8_lossy(changed));
        match &Files::new().compare(&name, changed, HOUSE.as_bytes())[..] {
            refusal @ (CLASH | UNSORTED) => String::from_utf8_lossy(refusal).into_owned(),
            _ => "accepted".to_string(),
        }
    });
    check_met(met, "accepted|(no 14)\n|(no 15)\n", true);
}

#[test]
fn each_byte_changed() {
    check_each(&with_changed_bytes(OFFICE.as_bytes()));
}

#[test]
fn each_line_changed() {
    let office_at_odds = OFFICE.replace("(route 1 0 2)", "(route 1 0 10)");
    check_each(&[with_changed_lines(OFFICE.as_bytes()), with_changed_lines(office_at_odds.as_bytes())].concat());
}

/// 15 is tested before 14, on both files, wherever the fault stands.
#[test]
fn refusals_in_order() {
    let files = Files::new();
    let at_odds = HOUSE.replace("(node 1 host", "(node 1 gate");
    let office_at_odds = OFFICE.replace("(node 1 host", "(node 1 gate");
    let faults = |text: &str| {
        let without_newline = text[..text.len() - 1].to_string();
        [format!("\n{text}"), format!("{text}\n"), text.to_string() + "(end)\n", without_newline]
    };
    files.check("a clash", OFFICE.as_bytes(), at_odds.as_bytes(), CLASH);
    for fault in faults(&at_odds) {
        files.check("a clash and a fault", OFFICE.as_bytes(), fault.as_bytes(), UNSORTED);
        files.check("a fault in the other", office_at_odds.as_bytes(), fault.as_bytes(), UNSORTED);
        for other in faults(OFFICE) {
            files.check("a clash and two faults", other.as_bytes(), fault.as_bytes(), UNSORTED);
        }
    }
}

/// A route whose nodes only the other file has is not as the network's text.
#[test]
fn a_file_stands_alone() {
    let files = Files::new();
    for line in ["(route 3 1 2)\n", "(route 1 3 2)\n", "(route 1 2 3)\n", "(route 3 0 1)\n", "(route 2 0 3)\n"] {
        let nodes = "(node 1 host (has) (needs))\n(node 2 host (has) (needs))\n";
        let third = "(node 3 host (has) (needs))\n";
        files.check(line, [nodes, line].concat().as_bytes(), [nodes, third].concat().as_bytes(), UNSORTED);
        let whole = [nodes, third, line].concat();
        files.check(line, whole.as_bytes(), [nodes, third].concat().as_bytes(), whole.as_bytes());
    }
}

/// All 32 nodes with every credential, and every route: in two halves, and with a byte too many or too few.
#[test]
fn the_largest_network() {
    let files = Files::new();
    let (largest, [first, second]) = (text(&fullest()), fullest_in_halves().each_ref().map(text));
    assert_eq!(largest.len(), 29_376);
    files.check("in halves", &first, &second, &largest);
    check_again(&files, "the largest", [&first, &second], &largest);
    for byte in [b'\n', b' ', b'(', b'\0'] {
        files.check("a byte too many", &[&largest[..], &[byte]].concat(), &first, UNSORTED);
    }
    files.check("a byte too few", &largest[..largest.len() - 1], &first, UNSORTED);
}
