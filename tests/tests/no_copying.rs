//! #105: a line is written straight into the caller's slice, with no buffer of bytes of the simulator's own between. The source is
//! searched for one. No global changes, so a buffer is an array, or a value of a type that the toolchain's libraries have, as `Vec`, and
//! bytes come into it, or into a slice, by a store, by a lend, by a function over elements of any type or by what those libraries have: a
//! path, a type, a method or a macro that the source does not declare. Each of those that the source has is named below as what it is; any
//! other is found.

use simulator_tests::script::here;
use simulator_tests::source::{inside, is_named, parts, places, sources, words, Source};
use std::collections::BTreeSet;
use std::fs;

/// Programs that the gate runs to print what single calls of the library write: no answer of the simulator goes through them.
const CASES: [&str; 2] = ["call_cases", "form_cases"];

/// The crates that make lines out of words and numbers. What they are lent to read are words of the form language, which are constants: they borrow
/// nothing, and nobody outside can lend them bytes: no public function takes any, and of the file `PUT` only a type is public.
const WRITERS: [&str; 2] = ["answers", "reports"];
const PUT: &str = "answers/src/put.rt";
const EXPORTS: [&str; 3] = ["pub use ", "pub fn byte(", "pub fn word("];

/// What an array holds, where that shows that it holds no bytes.
const HELD: [&str; 11] =
    ["bool", "false", "u16", "u64", "0u64", "Option<Node>", "Option<Slot>", "Part", "Row", "Session", "Slot"];

/// What the language itself has that holds and copies no bytes: words, and methods.
const PLAIN: [&str; 17] = [
    "Clone", "Copy", "Drop", "Eq", "Err", "Error", "Fn", "From", "Model", "None", "Ok", "Option", "PartialEq", "Result",
    "Self", "Some", "TryFrom",
];
const PLAIN_METHODS: [&str; 29] = [
    "all",
    "and_then",
    "any",
    "contains",
    "count",
    "enumerate",
    "filter",
    "find",
    "is_ascii_digit",
    "is_empty",
    "is_none",
    "is_none_or",
    "is_ok",
    "is_some",
    "is_some_and",
    "iter",
    "len",
    "map_or",
    "min",
    "ok",
    "ok_or",
    "or",
    "position",
    "rev",
    "saturating_add",
    "saturating_sub",
    "starts_with",
    "unwrap_or",
    "zip",
];
/// A macro that tests.
const PLAIN_MACRO: &str = "matches";

/// What shows that a crate has bytes to write: a slice of them is lent, or the writer's output.
const BYTES: [&str; 2] = ["mut [u8]", "Output"];

/// What the source has of these, by crate.
const NAMED: &[(&str, &str)] = &[
    // the places that write bytes of a call's answer: a digit, and a word, which is a constant
    ("answers", "out[at] ="),
    ("answers", "out[last] ="),
    ("answers", "self.out[self.at] ="),
    ("answers", "*byte"),
    // the output with its place, and what a line is made of: no bytes
    ("answers", "pub struct"),
    ("answers", "pub out"),
    ("answers", "pub at"),
    ("answers", "*self"),
    ("answers", "u8::from"),
    ("answers", "u8::from"),
    ("answers", "*is_held"),
    ("answers", "&self.node.has"),
    ("answers", "&self.node.needs"),
    ("reports", "*self"),
    ("reports", "*self"),
    ("reports", "*self"),
    ("reports", "*self"),
    ("reports", "&mut output"),
    ("reports", "&answer"),
    ("reports", "&n.nodes"),
    ("reports", "&n.routes"),
    // a table whose entries have lines
    ("reports", "[E]"),
    // the caller's input, of which the rest is moved to the front
    ("pieces", ".copy_within"),
    // the program's own input and output: it is the caller, and these are the slices that it lends
    ("simulate", "[0u8; 65536]"),
    ("simulate", "[0u8; 131072]"),
    ("simulate", "&mut input"),
    ("simulate", "&mut out"),
    ("simulate", "&mut input[at..]"),
    ("simulate", "std::io::Print"),
    ("simulate", "std::io::Read"),
    ("simulate", "HostRuntime"),
    ("simulate", "u64::MAX"),
    ("simulate", ".stdin"),
    ("simulate", ".read"),
    ("simulate", ".write_all"),
    ("simulate", ".is_err"),
    // a join's lines: parts of the two files, copied to the caller's slice
    ("joins", ".copy_from_slice"),
    // where the next line of each of the two files starts
    ("joins", "&mut usize"),
    ("joins", "*at"),
    ("joins", "*at"),
    ("joins", "&mut i"),
    ("joins", "&mut i"),
    ("joins", "&mut j"),
    ("joins", "&mut j"),
    // what a fresh state answers to a file, and the text of its network: compared with the file, and written nowhere
    ("joins", "[0u8; 70976]"),
    ("joins", "&mut scratch"),
    ("joins", "&mut scratch"),
    // the files and the output of the program `join`, which is the caller, and the names of its files
    ("join", "[0u8; 29377]"),
    ("join", "[0u8; 29377]"),
    ("join", "[0u8; 65536]"),
    ("join", "&mut a"),
    ("join", "&mut b"),
    ("join", "&mut out"),
    ("join", "[0u8; 4096]"),
    ("join", "&mut path"),
    ("join", "&mut file"),
    ("join", "std::env::Env"),
    ("join", "std::fs::File"),
    ("join", "std::io::Print"),
    ("join", "std::io::Result"),
    ("join", "HostRuntime"),
    ("join", "File"),
    ("join", "File::open"),
    ("join", "str::from_utf8"),
    ("join", ".arg"),
    ("join", ".write_all"),
    // a program's input, read into the slice that it lends, with zeros behind it
    ("inputs", "&mut buffer[size..]"),
    ("inputs", "std::io::self"),
    ("inputs", "std::io::Read"),
    ("inputs", "Read"),
    ("inputs", "io::Result"),
    ("inputs", "io::Result"),
    ("inputs", ".read"),
    ("inputs", ".fill"),
    ("inputs", ".fill"),
    // the next hops: numbers of nodes, whose digits a report writes
    ("calculus", "[Option<u8>; 1056]"),
    // a table of the network, of its nodes or of its next hops
    ("lookups", "[Option<T>]"),
    // one of the parts of a table, taken out and put back
    ("tables", "[T]"),
    ("tables", "[T]"),
    ("tables", "[T; N]"),
    ("tables", "[T; N]"),
    ("tables", "[table[N * at]; N]"),
    ("tables", ".copy_from_slice"),
    ("tables", ".copy_from_slice"),
    ("tables", "[load_at(s, 0); 8]"),
    ("lookups", "[T]"),
    // elements of these taken out, put back, stored or walked
    ("lookups", "entry(&n.nodes, a as usize - 1)"),
    ("lookups", "entry(&n.routes, route_place(a, b))"),
    ("networks", "set_at(&mut n.nodes, pred(a) as usize, Some(node))"),
    ("networks", "set_at(&mut n.routes, route_place(a, b), next_node(hop))"),
    ("items", "set_at(items, at, None)"),
    ("items", "set_at(items, at, Some(Slot { number: n, item: i }))"),
    ("effects", "set_at(items, at, None)"),
    ("effects", "set_at(rows, at, older)"),
    ("effects", "set_at(rows, at + 1, newer)"),
    ("tables", "block(&s.items, at)"),
    ("tables", "block(&s.rows, at)"),
    ("tables", "put_block(&mut s.items, at, &t.items)"),
    ("tables", "put_block(&mut s.rows, at, &t.rows)"),
    ("reports", "put_table(out, users)"),
    ("reports", "put_table(out, &n.nodes)"),
    ("reports", "put_table(out, &n.routes)"),
    // numbers, rows and places, each behind a reference to one of them
    ("effects", "*i"),
    ("effects", "*i"),
    ("effects", "*j"),
    ("effects", "*l"),
    ("effects", "*tag"),
    ("rows", "*row"),
    ("lookups", "*had"),
    ("lookups", "*needed"),
    ("rows", ".copied"),
    ("items", "*s"),
    ("items", "*s"),
    ("items", "*s"),
    ("items", "*s"),
    ("items", "*"),
    ("forms", "*c"),
    ("forms", "u64::from"),
    // a lemma
    ("lookups", "std::proofs::lemmas::List::take_all"),
    // other tables, and what they hold where nothing is given or pending
    ("tables", "[None; 32]"),
    ("tables", "[None; 1056]"),
    ("tables", "[None; 128]"),
    ("lookups", "[None; 16]"),
    ("tables", "[0; 2048]"),
    ("tables", "[session; 8]"),
    ("tables", "[row; 256]"),
    ("lookups", "[row; 32]"),
    // the state, its tables and a session's part, which a line changes in place
    ("simulator", "&mut s.opened"),
    ("simulator", "&mut s.users"),
    ("simulator", "&mut s.network"),
    ("simulator", "&mut parts[at]"),
    ("simulator", "&mut part"),
    ("simulator", "&mut state"),
    ("simulator", "&mut state"),
    ("simulator", "&mut state"),
    ("sessions", "*t"),
    ("sessions", "*blank"),
    ("turns", "*opened"),
    ("turns", "*opened"),
    ("turns", "*opened"),
    ("turns", "*opened"),
    // what is made of an answer, of a header's peer, and of how much of a file was read: a part of the buffer
    ("simulator", ".map"),
    ("forwarding", ".map"),
    ("join", ".map"),
    ("join", ".map"),
    // a type that is seen as the number that it holds
    ("calculus", "std::marker::Model"),
];

/// A place in the code, and what was found there.
type Found = (usize, String);

/// The arrays that hold bytes, or do not show what they hold.
fn arrays(code: &str) -> Vec<Found> {
    let mut found = Vec::new();
    for (before, behind) in places(code, "[") {
        let array = inside(behind);
        let held = array.split([';', ',']).next().unwrap_or_default();
        let indexes = before.ends_with(|c| is_named(c) || ")]\"#".contains(c)) || before.ends_with("#!");
        // a slice of bytes is lent
        if !indexes && array != "u8" && !HELD.contains(&held) {
            found.push((before.len(), format!("[{array}]")));
        }
    }
    found
}

/// The elements that are stored.
fn stores(code: &str) -> Vec<Found> {
    let mut found = Vec::new();
    for (before, behind) in places(code, "[") {
        let name = &before[before.rfind(|c| !is_named(c)).map_or(0, |at| at + 1)..];
        let index = inside(behind);
        let rest = behind[index.len()..].trim_start_matches(']').trim_start_matches(is_named);
        let operator = rest.split_whitespace().next().unwrap_or_default();
        if !name.is_empty() && operator.ends_with('=') && !["==", "!=", "<=", ">="].contains(&operator) {
            found.push((before.len(), format!("{name}[{index}] =")));
        }
    }
    found
}

/// What is lent by a mark: to write by `&mut `, to read by `&`. A value or a reference of a type that the source declares shows by that type what
/// it is, and `&self` has no more than its own.
fn lends(code: &str, mark: &str, declared: &Declared) -> Vec<Found> {
    let mut found = Vec::new();
    for (before, behind) in places(code, mark) {
        let name = name_at(behind);
        let index = behind[name.len()..].strip_prefix('[').map_or(String::new(), |part| format!("[{}]", inside(part)));
        let is_type = name.starts_with(char::is_uppercase) && declared.names.contains(name);
        let is_own = is_type || name == "self" && index.is_empty();
        if !["", "mut"].contains(&name) && !is_own {
            found.push((before.len(), format!("{mark}{name}{index}")));
        }
    }
    found
}

/// What the source declares: its crates, and their modules and types, with the variants of these; its methods; and its functions over
/// elements of any type, each with the crate that has it to itself, if one has.
struct Declared {
    names: BTreeSet<String>,
    methods: BTreeSet<String>,
    over_any: Vec<(String, Option<String>)>,
}

impl Declared {
    fn of(files: &[(&Source, String)]) -> Self {
        let text = fs::read_to_string(here("crates.txt")).expect("crates.txt is read");
        let crates = text.lines().filter_map(|line| line.split_once(':')).map(|(name, _)| name.to_string());
        let mut names: BTreeSet<_> = crates.chain(["crate", "self", "super"].map(str::to_string)).collect();
        let mut methods: BTreeSet<_> = PLAIN_METHODS.map(str::to_string).into();
        let mut over_any = Vec::new();
        let all = files.iter().flat_map(|(source, code)| words(code).map(move |found| (source.crate_name(), found)));
        for (crate_name, (before, word, behind)) in all {
            let declares = ["mod ", "struct ", "enum ", "trait ", "const "].iter().any(|mark| before.ends_with(mark));
            let is_parameter = before.ends_with('<') && behind.starts_with(": ");
            if declares && !before.ends_with("*const ") || is_parameter {
                names.insert(word.to_string());
            }
            if before.ends_with("enum ") {
                let variants = parts(inside(behind.split_once('{').unwrap_or_default().1));
                names.extend(variants.iter().map(|variant| name_at(variant).to_string()));
            }
            let parameters = inside(behind.split_once('(').unwrap_or_default().1);
            if before.ends_with("fn ") && parts(parameters).first().is_some_and(|first| first.ends_with("self")) {
                methods.insert(word.to_string());
            }
            if before.ends_with("fn ") && is_over_any(behind) {
                over_any.push((word.to_string(), (!is_public(before)).then(|| crate_name.to_string())));
            }
        }
        Declared { names, methods, over_any }
    }
}

/// The parameters in the list `<..>` that a text starts with, but for lifetimes.
fn type_parameters(text: &str) -> Vec<&str> {
    let mut found = Vec::new();
    let mut open = 0;
    for (at, c) in text.char_indices() {
        match c {
            '<' | '(' | '[' => open += 1,
            '>' if text[..at].ends_with('-') => {}
            '>' | ')' | ']' => open -= 1,
            _ => {}
        }
        if open == 1 && (c == '<' || c == ',') {
            found.push(name_at(text[at + 1..].trim_start()));
        }
        if open == 0 || at == 0 && c != '<' {
            break;
        }
    }
    found
}

/// Whether a function, here from behind its name on, has an array or a slice whose elements are of any type.
fn is_over_any(behind: &str) -> bool {
    let types = type_parameters(behind);
    let declaration = behind.split('{').next().unwrap_or_default();
    let holds_any = |array: &str| words(array).any(|(_, word, _)| types.contains(&word));
    places(declaration, "[").any(|(_, array)| holds_any(inside(array)))
}

/// The uses of functions over elements of any type, each with what it is called on.
fn uses_over_any(source: &Source, code: &str, declared: &Declared) -> Vec<Found> {
    let mut found = Vec::new();
    for (before, word, behind) in words(code) {
        let is_it = |(name, only): &(String, Option<String>)| {
            name == word && only.as_ref().is_none_or(|only| only == source.crate_name())
        };
        let is_import = || is_imported(before) && !behind.starts_with(" as ");
        if declared.over_any.iter().any(is_it) && !before.ends_with("fn ") && !is_import() {
            let is_called = behind.starts_with(['(', ':']);
            let (types, arguments) = behind.split_once('(').filter(|_| is_called).unwrap_or_default();
            let call = if is_called { format!("{word}{types}({})", inside(arguments)) } else { word.to_string() };
            found.push((before.len(), call.split_whitespace().collect::<Vec<_>>().join(" ")));
        }
    }
    found
}

/// Whether a word stands in an import.
fn is_imported(before: &str) -> bool {
    let item = before.rsplit([';', ']']).next().unwrap_or_default().trim_start();
    item.starts_with("use ") || item.starts_with("pub use ")
}

/// Whether others may use what is declared there.
fn is_public(before: &str) -> bool {
    before.rsplit('\n').next().is_some_and(|line| line.trim_start().starts_with("pub "))
}

/// Each path that starts at this one; behind it a list in braces may go on.
fn paths(start: &str) -> Vec<String> {
    let path = &start[..start.find(|c| !is_named(c) && c != ':').unwrap_or(start.len())];
    match start[path.len()..].strip_prefix('{') {
        Some(list) => parts(inside(list)).into_iter().flat_map(paths).map(|part| format!("{path}{part}")).collect(),
        None => vec![path.to_string()],
    }
}

/// What is used that the source does not declare, which may make or fill a buffer: a path, a type, a method or a macro. A type is
/// found once.
fn library(code: &str, declared: &Declared) -> Vec<Found> {
    let mut found = Vec::new();
    let mut types = BTreeSet::new();
    for (before, word, behind) in words(code) {
        let is_own = declared.names.contains(word);
        let is_imported = is_imported(before);
        let calls = behind.starts_with(['(', ':']);
        if before.ends_with("::") || word.starts_with(char::is_numeric) {
            continue;
        } else if before.ends_with('.') && !before.ends_with("..") {
            if calls && !declared.methods.contains(word) {
                found.push((before.len(), format!(".{word}")));
            }
        } else if behind.starts_with('!')
            && word != PLAIN_MACRO
            && behind[1..].trim_start().starts_with(['(', '[', '{'])
        {
            found.push((before.len(), format!("{word}!")));
        } else if before.ends_with("use ") || behind.starts_with("::") && !is_imported {
            if !is_own {
                found.extend(paths(&code[before.len()..]).into_iter().map(|path| (before.len(), path)));
            }
        } else if word.starts_with(char::is_uppercase) && !is_own && !is_imported && !PLAIN.contains(&word) {
            found.extend(types.insert(word).then(|| (before.len(), word.to_string())));
        }
    }
    found
}

/// The values behind references, as the array of a byte string.
fn dereferences(code: &str) -> Vec<Found> {
    let unary = places(code, "*").filter(|(_, behind)| !behind.starts_with([' ', '=']));
    unary.map(|(before, behind)| (before.len(), format!("*{}", name_at(behind)))).collect()
}

/// The functions that others may call and that are lent bytes to read.
fn lent_to_read(code: &str) -> Vec<Found> {
    let mut found = Vec::new();
    for (before, behind) in places(code, "fn ") {
        let parameters = inside(behind.split_once('(').unwrap_or_default().1);
        let is_bytes = |parameter: &str| parameter.ends_with("[u8]") || parameter.ends_with("str");
        let is_lent = |parameter: &str| is_bytes(parameter) && !parameter.contains("mut ");
        if is_public(before) && parameters.split(',').any(is_lent) {
            found.push((before.len(), format!("fn {}", name_at(behind))));
        }
    }
    found
}

fn name_at(text: &str) -> &str {
    &text[..text.find(|c| !is_named(c)).unwrap_or(text.len())]
}

/// What is found in a file; of stores and lends those where its crate has bytes to write.
fn found_in(source: &Source, code: &str, declared: &Declared, has_bytes: bool) -> Vec<Found> {
    let mut found =
        [arrays(code), dereferences(code), library(code, declared), uses_over_any(source, code, declared)].concat();
    if has_bytes {
        found.extend(stores(code));
        found.extend(lends(code, "&mut ", declared));
        found.extend(lends(code, "ref mut ", declared));
    }
    if WRITERS.contains(&source.crate_name()) {
        found.extend(lends(code, "&", declared));
        found.extend(
            EXPORTS.iter().flat_map(|mark| places(code, mark).map(|(before, _)| (before.len(), mark.to_string()))),
        );
        found.extend(lent_to_read(code));
    }
    if source.path == PUT {
        found.extend(places(code, "pub ").map(|(before, behind)| (before.len(), format!("pub {}", name_at(behind)))));
    }
    found
}

/// What is found and not named, then what is named and not found.
fn search(sources: &[Source]) -> (Vec<String>, Vec<(&'static str, &'static str)>) {
    let files: Vec<_> = sources.iter().map(|source| (source, source.code())).collect();
    let declared = Declared::of(&files);
    let (mut found, mut named) = (Vec::new(), NAMED.to_vec());
    for (source, code) in &files {
        let is_mark = |code: &String| BYTES.iter().any(|mark| code.contains(mark));
        let has_bytes = files.iter().any(|(other, code)| other.crate_name() == source.crate_name() && is_mark(code));
        for (at, text) in found_in(source, code, &declared, has_bytes) {
            match named.iter().position(|name| *name == (source.crate_name(), &text[..])) {
                Some(place) => drop(named.remove(place)),
                None => found.push(format!("{}:{}: {text}", source.path, code[..at].matches('\n').count() + 1)),
            }
        }
    }
    (found, named)
}

/// The files of every crate but the cases.
fn searched() -> Vec<Source> {
    let mut sources = sources();
    sources.retain(|source| !CASES.contains(&source.crate_name()));
    sources
}

#[test]
fn no_buffer_of_bytes_between_an_outcome_and_the_callers_slice() {
    let (found, gone) = search(&searched());
    assert!(found.is_empty(), "a buffer or a copy of bytes, or to be named here as what it is: {found:#?}");
    assert!(gone.is_empty(), "named here, and not in the source: {gone:#?}");
}

/// A line put into the source before another, and what is then found.
#[test]
fn a_buffer_put_in_is_found() {
    let planted = [
        // a local array, also one that does not show what it holds, and one of a byte string
        ("answers/src/write.rt", "        match *self {", "let mut line = [0u8; 32];", "[0u8; 32]"),
        ("answers/src/put.rt", "        self.at += 1;", "let line = [last];", "[last]"),
        ("answers/src/put.rt", "        self.at += 1;", "let mut line = [None; 400];", "[None; 400]"),
        (
            "answers/src/put.rt",
            "        self.at += 1;",
            "let line = [next as u64, word[0] as u64];",
            "[next as u64, word[0] as u64]",
        ),
        ("answers/src/room.rt", "    room <= size", "let mut word = *b\"(made\";", "*b"),
        (
            "reports/src/network.rt",
            "        if let Some(next) = *self {",
            "let mut routes: [u8; 1056] = [0; 1056];",
            "[0; 1056]",
        ),
        ("simulate/src/main.rt", "    run(&rt, &mut input", "let mut out = [0u8; 131072];", "[0u8; 131072]"),
        ("joins/src/merge.rt", "        end += size;", "let mut lines = [0u8; 65536];", "[0u8; 65536]"),
        // an array of a library
        ("simulator/src/call.rt", "    let asked = read(line);", "let mut line = io::buffer();", "io::buffer"),
        (
            "simulator/src/call.rt",
            "use calculus::state::State;",
            "use std::{env, io::{Print, Write}};",
            "std::io::Write",
        ),
        // bytes on the heap, and a string
        ("pieces/src/lib.rt", "    let kept = keep", "let mut line: Vec<u8> = Default::default();", "Vec"),
        ("simulator/src/call.rt", "    let asked = read(line);", "let line = line.to_vec();", ".to_vec"),
        ("reports/src/show.rt", "    out.write(&End);", "let line = format!(in a; \"(end)\");", "format!"),
        ("joins/src/merge.rt", "        end += size;", "let line = str::from_utf8(line);", "str::from_utf8"),
        // a field
        ("calculus/src/answer.rt", "    pub spi: Spi,", "pub line: [u8; 32],", "[u8; 32]"),
        ("simulator/src/calls.rt", "    pub read: usize,", "pub lines: [Line; 4],", "[Line; 4]"),
        // a copy
        ("simulator/src/call.rt", "    let asked = read(line);", "out[0] = line[0];", "out[0] ="),
        ("reports/src/show.rt", "    out.write(&End);", "out[next] |= out[at];", "out[next] ="),
        ("joins/src/merge.rt", "        end += size;", "out[end] = line[0];", "out[end] ="),
        ("pieces/src/lib.rt", "    let kept = keep", "out[..4].copy_from_slice(b\"(ok)\");", ".copy_from_slice"),
        ("reports/src/show.rt", "    out.write(&End);", "for byte in out.iter_mut() {}", ".iter_mut"),
        ("pieces/src/lib.rt", "    let kept = keep", "keep(&mut out[from..], 4, to);", "&mut out[from..]"),
        ("answers/src/put.rt", "        self.word(b\")\\n\");", "self.word(&out[..at]);", "&out[..at]"),
        // the same by a function over elements of any type, under its name or another
        ("simulator/src/call.rt", "    let asked = read(line);", "set_at(out, 0, line[0]);", "set_at(out, 0, line[0])"),
        ("pieces/src/lib.rt", "    let kept = keep", "set_at(out, 0, input[0]);", "set_at(out, 0, input[0])"),
        ("joins/src/merge.rt", "        end += size;", "set_at(out, end, line[0]);", "set_at(out, end, line[0])"),
        ("joins/src/lib.rt", "    let answer: Result<", "set_at(out, 0, 40);", "set_at(out, 0, 40)"),
        ("joins/src/lib.rt", "use answers::", "use lookups::set::set_at as keep;", "set_at"),
        ("tables/src/places.rt", "    Part {", "let line = block(b\"(made 1)\", 0);", "block(b\"\", 0)"),
        // in a crate that is lent no other bytes
        (
            "turns/src/lib.rt",
            "// What a line answers",
            "fn mark(out: &mut Output<'_>) { out.out[0] = 40; }",
            "out.out[0] =",
        ),
        ("simulator/src/call.rt", "    let asked = read(line);", "let line = b\"(made 1)\".map(|b| b);", ".map"),
        // a way for others to have bytes copied
        ("answers/src/write.rt", "// Writes", "pub fn copy(out: &mut [u8], s: &[u8]) {}", "fn copy"),
        ("answers/src/put.rt", "    // One byte.", "pub fn byte(&mut self, byte: u8) {}", "pub fn byte("),
        ("answers/src/put.rt", "    // One byte.", "pub fn raw(&mut self, b: u8) { self.byte(b); }", "pub fn"),
        ("answers/src/put.rt", "    // `n` in decimal.", "pub fn number(&mut self, n: u64) {}", "pub fn"),
        ("answers/src/lib.rt", "pub mod write;", "pub use crate::put::Output;", "pub use "),
        ("answers/src/put.rt", "    // One byte.", "pub fn copy(&mut self, s: &[u8]) {}", "fn copy"),
    ];
    for (path, before, line, expected) in planted {
        let mut sources = searched();
        let source = sources.iter_mut().find(|source| source.path == path).expect("the file is there");
        assert_eq!(source.text.matches(before).count(), 1, "{before} in {path}");
        source.text = source.text.replace(before, &format!("{line}\n{before}"));
        let (found, _) = search(&sources);
        let is_expected = |finding: &String| finding.starts_with(path) && finding.ends_with(&format!(": {expected}"));
        assert!(found.iter().any(is_expected), "{line} in {path}: {found:?}");
    }
}
