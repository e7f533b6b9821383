//! What is a form, and the edges of every range, on both implementations.

use simulator_tests::compare::{check, check_output};
use simulator_tests::damage::long_form;

const NETWORK: [(&str, &str); 5] = [
    ("(node 1 host (has) (needs))", "(ok)"),
    ("(node 2 host (has) (needs))", "(ok)"),
    ("(node 32 host (has) (needs))", "(ok)"),
    ("(route 1 2 2)", "(ok)"),
    ("(route 2 1 1)", "(ok)"),
];

fn on_network(script: &[(&str, &str)]) {
    check(&[&NETWORK, script].concat());
}

#[test]
fn nodes() {
    check(&[
        ("(node 0 host (has) (needs))", "(no 2)"),
        ("(node 1 host (has) (needs))", "(ok)"),
        ("(node 32 gate (has) (needs))", "(ok)"),
        ("(node 33 host (has) (needs))", "(no 2)"),
        ("(node 4294967297 host (has) (needs))", "(no 2)"),
        ("(node 9999999999 host (has) (needs))", "(no 2)"),
        ("(node 10000000001 host (has) (needs))", "(no 1)"),
        ("(route 0 1 1)", "(no 2)"),
        ("(route 1 32 0)", "(no 2)"),
        ("(route 33 1 1)", "(no 2)"),
        ("(route 1 33 32)", "(no 2)"),
        ("(route 1 32 33)", "(no 2)"),
        ("(route 4294967297 32 32)", "(no 2)"),
        ("(route 1 32 32)", "(ok)"),
        ("(route 32 1 1)", "(ok)"),
    ]);
}

/// Destination 0 is a default's, and the other two numbers stay in the range of nodes.
#[test]
fn defaults() {
    on_network(&[
        ("(route 0 0 1)", "(no 2)"),
        ("(route 33 0 1)", "(no 2)"),
        ("(route 256 0 1)", "(no 2)"),
        ("(route 4294967297 0 32)", "(no 2)"),
        ("(route 1 0 0)", "(no 2)"),
        ("(route 1 0 33)", "(no 2)"),
        ("(route 1 0 288)", "(no 2)"),
        ("(route 1 0 4294967328)", "(no 2)"),
        ("(route 0 0 0)", "(no 2)"),
        // no other number is taken for 0
        ("(route 1 64 32)", "(no 2)"),
        ("(route 1 256 32)", "(no 2)"),
        ("(route 1 4294967296 32)", "(no 2)"),
        ("(route 1 8589934592 32)", "(no 2)"),
        ("(route 1 10000000000 32)", "(no 1)"),
        ("(route 1 0 32)", "(ok)"),
        ("(route 32 0 1)", "(ok)"),
    ]);
}

#[test]
fn credentials() {
    check(&[
        ("(node 1 host (has 0) (needs 63))", "(ok)"),
        ("(node 2 host (has 0 1 62 63) (needs 0 63))", "(ok)"),
        ("(node 3 host (has 64) (needs))", "(no 2)"),
        ("(node 3 host (has) (needs 64))", "(no 2)"),
        ("(node 3 host (has 0 64) (needs))", "(no 2)"),
        ("(node 3 host (has) (needs 9999999999))", "(no 2)"),
        ("(node 3 host (has 4294967296) (needs))", "(no 2)"),
        ("(node 3 host (has 5 5) (needs))", "(no 2)"),
        ("(node 3 host (has) (needs 0 0))", "(no 2)"),
        ("(node 3 host (has 5 4) (needs))", "(no 2)"),
        ("(node 3 host (has 1 2 3 2) (needs))", "(no 2)"),
        ("(node 3 host (has) (needs 63 0))", "(no 2)"),
        ("(node 3 host (has) (needs 10000000000))", "(no 1)"),
        ("(node 3 host (has 64 x) (needs))", "(no 1)"),
        ("(node 3 host (has 64) (needs)", "(no 1)"),
        ("(node 3 gate (has 7) (needs 7))", "(ok)"),
    ]);
}

/// Node 1 needs every credential, and each of the 64 is looked at.
#[test]
fn every_credential_counts() {
    let all = |without: Option<u64>| {
        (0..64).filter(|&one| Some(one) != without).map(|one| format!(" {one}")).collect::<String>()
    };
    for missing in (0..64).map(Some).chain([None]) {
        let calls = [
            (format!("(node 1 host (has) (needs{}))", all(None)), "(ok)"),
            (format!("(node 2 host (has{}) (needs))", all(missing)), "(ok)"),
            ("(route 1 2 2)".to_string(), "(ok)"),
            ("(route 2 1 1)".to_string(), "(ok)"),
            ("(open 1 1 2)".to_string(), "(made 1)"),
        ];
        let steps = [(1, "2"), (2, "3 4"), (4, "5 6"), (5, "7"), (7, "8"), (8, "9"), (9, "10")];
        let steps = steps.map(|(item, made)| (format!("(step 1 {item})"), format!("(made {made})")));
        let last = ("(step 1 10)".to_string(), if missing.is_some() { "(denied)" } else { "(made 11)" }.to_string());
        let calls = calls.map(|(call, answer)| (call, answer.to_string()));
        check(&[&calls[..], &steps, &[last]].concat());
    }
}

#[test]
fn sessions() {
    on_network(&[
        ("(open 0 1 2)", "(no 2)"),
        ("(open 9 1 2)", "(no 2)"),
        ("(open 1 1 2)", "(made 1)"),
        ("(open 8 1 2)", "(made 1)"),
        ("(step 0 1)", "(no 2)"),
        ("(step 9 1)", "(no 2)"),
        ("(step 4294967297 1)", "(no 2)"),
        ("(step 8 1)", "(made 2)"),
        ("(send 0 0 7)", "(no 2)"),
        ("(send 9 0 7)", "(no 2)"),
        ("(send 8 0 7)", "(made 3)"),
        ("(drop 0 1)", "(no 2)"),
        ("(drop 9 1)", "(no 2)"),
        ("(drop 257 1)", "(no 2)"),
        ("(drop 4294967297 1)", "(no 2)"),
        ("(drop 10000000001 1)", "(no 1)"),
        ("(drop 8 1)", "(no 17)"),
        ("(close 0)", "(no 2)"),
        ("(close 9)", "(no 2)"),
        ("(close 257)", "(no 2)"),
        ("(close 9999999999)", "(no 2)"),
        ("(close 10000000001)", "(no 1)"),
        ("(close 8)", "(closed)"),
        ("(close 1)", "(closed)"),
    ]);
}

#[test]
fn ends() {
    on_network(&[
        ("(open 1 0 2)", "(no 2)"),
        ("(open 1 1 0)", "(no 2)"),
        ("(open 1 33 2)", "(no 2)"),
        ("(open 1 1 33)", "(no 2)"),
        ("(open 1 257 2)", "(no 2)"),
        ("(open 1 1 4294967298)", "(no 2)"),
        ("(open 1 1 32)", "(made 1)"),
        ("(open 2 32 1)", "(made 1)"),
        ("(step 1 1)", "(lost 3)"),
        ("(step 2 1)", "(lost 3)"),
    ]);
}

#[test]
fn items() {
    on_network(&[
        ("(open 1 1 2)", "(made 1)"),
        ("(step 1 0)", "(no 2)"),
        ("(step 1 1000000)", "(no 11)"),
        ("(step 1 1000001)", "(no 2)"),
        ("(step 1 65537)", "(no 11)"),
        ("(step 1 4294967297)", "(no 2)"),
        ("(step 1 9999999999)", "(no 2)"),
        ("(step 1 10000000001)", "(no 1)"),
        ("(step 2 0)", "(no 2)"),
        ("(step 2 1000000)", "(no 7)"),
        ("(step 1 1)", "(made 2)"),
    ]);
}

/// All of the range before and while establishment 1 is busy: no other number is taken for it.
#[test]
fn establishments() {
    let numbers = |first: &'static str| {
        let above = ["0", "9", "10", "257", "65537", "4294967297", "9999999999"].map(|number| (number, "(no 2)"));
        let within = ["2", "3", "4", "5", "6", "7", "8"].map(|number| (number, "(no 17)"));
        let drops = [&above[..], &within, &[("1", first), ("10000000001", "(no 1)")]].concat();
        drops.into_iter().map(|(number, answer)| (format!("(drop 1 {number})"), answer.to_string()))
    };
    let network = NETWORK.into_iter().chain([("(open 1 1 2)", "(made 1)"), ("(step 1 1)", "(made 2)")]);
    let calls = network.map(|(call, answer)| (call.to_string(), answer.to_string()));
    let begin = [("(step 1 2)".to_string(), "(made 3 4)".to_string())];
    check(&calls.chain(numbers("(no 17)")).chain(begin).chain(numbers("(no 16)")).collect::<Vec<_>>());
}

#[test]
fn sides_and_tags() {
    on_network(&[
        ("(open 1 1 2)", "(made 1)"),
        ("(send 1 2 7)", "(no 2)"),
        ("(send 1 256 7)", "(no 2)"),
        ("(send 1 4294967296 7)", "(no 2)"),
        ("(send 1 0 4294967296)", "(no 2)"),
        ("(send 1 0 9999999999)", "(no 2)"),
        ("(send 1 0 10000000000)", "(no 1)"),
        ("(send 1 0 0)", "(made 2)"),
        ("(send 1 1 4294967295)", "(made 3)"),
        ("(step 1 2)", "(made 4)"),
        ("(step 1 4)", "(made 5)"),
        ("(step 1 5)", "(made 6)"),
        ("(step 1 6)", "(delivered 0)"),
        ("(step 1 3)", "(made 7)"),
        ("(step 1 7)", "(made 8)"),
        ("(step 1 8)", "(made 9)"),
        ("(step 1 9)", "(delivered 4294967295)"),
    ]);
}

/// Lines that are no form, though many nearly are, with bars between.
const NO_FORMS: &str = "| |(|)|()|( )|show|(show|show)|(show))|((show)|(show )|( show)| (show)|(show) |(show)(show)|\
    (show) (show)|(Show)|(SHOW)|(shows)|(sho)|(show 1)|(show)\r|\r|(show)\0|\0(show)|(sh\0ow)|(show)\t|(show\t)|(sh\u{f6}w)|\
    \u{feff}(show)|net|(net|net)|(net))|(net )|( net)|(net) |(net)(net)|(Net)|(nets)|(ne)|(net 1)|(net 0)|(net ())|(net)\r|\
    (close)|(close )|(close 1 )|(close  1)|(close 1 1)|(close\t1)|(close 01)|(close 00)|(close +1)|\
    (close -1)|(close 1.0)|(close 0x1)|(close 1a)|(close a)|(close (1))|(close1)|(close 1|close 1|\
    (drop)|(drop )|(drop 1)|(drop 1 )|(drop 1 1 )|(drop 1 2 3)|(drop  1 1)|(drop 1  1)|( drop 1 1)|(drop\t1 1)|(drop 1\t1)|(drop 01 1)|(drop 1 01)|\
    (drop 1 00)|(drop 00 1)|(drop 1 +1)|(drop 1 -1)|(drop 1 1a)|(drop 1 a)|(drop 1 (1))|(drop (1 1))|(drop 1 1|\
    drop 1 1|drop 1 1)|(drop 1 1))|(drop 1 1)\r|(drop 1,1)|(drop11)|(drop1 1)|(Drop 1 1)|(drops 1 1)|(dro 1 1)|\
    (drop 1 1 default)|(step 1)|(step 1 )|\
    (step 1 2 3)|(step 01 1)|(step 1 00000000001)|(step 99999999999 1)|(steps 1 1)|(send 1 0)|(send 1 0 1 1)|\
    (send 1 00 1)|(send 1 0 01)|(open 1 1)|(open 1 1 2 3)|(open 1  1 2)|(route 1 2)|(route 1 2 2 2)|(route 1 2 02)|\
    (route 1 00 2)|(route 1 -0 2)|(route 1 +0 2)|(route 1  2)|(route 1 () 2)|(route 1 default 2)|(route 1 0 2 default)|\
    (route 1 0)|(route 0 2)|(default 1 2)|(step 1 1 default)|(open 1 1 2 default)|(made 1 default)|\
    (route 1,2,2)|(node 9)|(node 9 host)|(node 9 host (has))|(node 9 host (needs))|(node 9 host (needs) (has))|\
    (node 9 host (has)(needs))|(node 9 host (has)  (needs))|(node 9 host(has) (needs))|(node 9 host (has ) (needs))|\
    (node 9 host (has) (needs ))|(node 9 host (has) (needs) )|(node 9 host (has) (needs) (needs))|\
    (node 9 gateway (has) (needs))|(node 9 Host (has) (needs))|(node 9 (has) (needs))|(node host 9 (has) (needs))|\
    (node 9 host (has 00) (needs))|(node 9 host (has 0  5) (needs))|(node 9 host (has 0 5) (needs)) |\
    (node 9 host (has (0) 5) (needs))|(node 09 host (has) (needs))|(ok)|(made 1)|(end)|(no 1)";

#[test]
fn unreadable_lines() {
    let mut script: Vec<(&[u8], &str)> = vec![(b"(node 1 host (has) (needs))", "(ok)")];
    script.extend(NO_FORMS.split('|').map(|line| (line.as_bytes(), "(no 1)")));
    script.extend([(&b"\x80(show)"[..], "(no 1)"), (b"(show)\xff", "(no 1)"), (b"(sh\xa8ow)", "(no 1)")]);
    script.push((b"(node 9 host (has) (needs))", "(ok)"));
    script.push((b"(net)", "(node 1 host (has) (needs))\n(node 9 host (has) (needs))"));
    check(&script);
}

/// The longest form that is accepted, forms of 399 to 401 bytes, and longer lines of every kind.
#[test]
fn line_lengths() {
    let all: String = (0..64).map(|one| format!(" {one}")).collect();
    let full = format!("(node 32 gate (has{all}) (needs{all}))");
    assert_eq!(full.len(), 392);
    let mut script = vec![(full.into_bytes(), "(ok)")];
    for length in [399, 400] {
        script.push((long_form(length).into_bytes(), "(no 2)"));
    }
    for length in [401, 402, 5000, 65_535, 65_536, 65_537, 200_000] {
        script.push((long_form(length).into_bytes(), "(no 1)"));
    }
    for length in [399, 400, 401, 4095, 4096, 4097, 65_535, 65_536, 65_537] {
        script.push((vec![b'('; length], "(no 1)"));
        script.push((vec![b' '; length], "(no 1)"));
        let padded = [b"(show)".to_vec(), vec![b' '; length - 6]].concat();
        script.push((padded, "(no 1)"));
        script.push((b"(show)".to_vec(), "(end)"));
    }
    check(&script);
}

/// Only a newline ends a line, and a missing one at the end is fine.
#[test]
fn line_ends() {
    check_output(b"", b"");
    check_output(b"\n", b"(no 1)\n");
    check_output(b"\n\n", b"(no 1)\n(no 1)\n");
    check_output(b"(show)", b"(end)\n");
    check_output(b"(show)\n", b"(end)\n");
    check_output(b"(net)", b"");
    check_output(b"(net)\n\n(net)", b"(no 1)\n");
    check_output(b"(node 1 host (has) (needs))\n(net)", b"(ok)\n(node 1 host (has) (needs))\n");
    check_output(b"(show)\n(show)", b"(end)\n(end)\n");
    check_output(b"(show)\n\n", b"(end)\n(no 1)\n");
    check_output(b"\n(show)", b"(no 1)\n(end)\n");
    check_output(b"(show)\n ", b"(end)\n(no 1)\n");
    check_output(b"(show)\r\n(show)\r", b"(no 1)\n(no 1)\n");
    check_output(b"(show)\r(show)\n", b"(no 1)\n");
    check_output(b"(show)\0\n(show)", b"(no 1)\n(end)\n");
    check_output(b"(sho", b"(no 1)\n");
    check_output(long_form(400).as_bytes(), b"(no 2)\n");
    check_output(long_form(401).as_bytes(), b"(no 1)\n");
}
