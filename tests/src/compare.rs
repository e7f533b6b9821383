//! Compares outputs, byte by byte.

use crate::lists::{input, List};
use crate::{join, lines, program};
use std::fs;
use std::path::Path;

/// The bytes of output that the program lends a join.
const LENT: usize = 65_536;

/// The output's lines, each with its newline: no byte is left out.
fn lines_of(output: &[u8]) -> Vec<&[u8]> {
    output.split_inclusive(|&byte| byte == b'\n').collect()
}

/// Whether it is a line of the network's text: no other answer has such lines.
pub fn is_network(line: impl AsRef<[u8]>) -> bool {
    let line = line.as_ref();
    line.starts_with(b"(node ") || line.starts_with(b"(route ")
}

/// The numbers that a `(made ..)` answer carries, by a default route or not; of any other answer none.
pub fn made(answer: &str) -> Vec<u64> {
    let Some(parts) = answer.strip_prefix("(made ").and_then(|rest| rest.strip_suffix(')')) else {
        return Vec::new();
    };
    let numbers = parts.strip_suffix(" default").unwrap_or(parts);
    numbers.split(' ').map(|number| number.parse().expect("numbers are made")).collect()
}

/// The first line that differs: its index and what was expected and written there.
pub fn difference(expected: &[u8], output: &[u8]) -> Option<(usize, String)> {
    let (expected, output) = (lines_of(expected), lines_of(output));
    let line = (0..expected.len().max(output.len())).find(|&line| expected.get(line) != output.get(line))?;
    let text = |lines: &[&[u8]]| lines.get(line).map(|line| String::from_utf8_lossy(line).into_owned());
    Some((line, format!("expected {:?}, written {:?}", text(&expected), text(&output))))
}

/// The first difference between the list's answers and the output, with its call.
pub fn difference_from_list(list: &List, output: &[u8]) -> Option<String> {
    let (line, text) = difference(&input(&list.answers.concat()), output)?;
    let mut lines_so_far = 0;
    let call = list.answers.iter().position(|answer| {
        lines_so_far += answer.len();
        lines_so_far > line
    });
    let call = call.map(|call| String::from_utf8_lossy(&list.calls[call]));
    Some(format!("line {} of the output, call {call:?}: {text}", line + 1))
}

/// Asserts that both implementations give this output for this input.
pub fn check_output(input: &[u8], expected: &[u8]) {
    check_output_of("the input", input, expected);
}

/// The same, with a name of the input for where it fails.
pub fn check_output_of(name: &str, input: &[u8], expected: &[u8]) {
    assert_eq!(difference(expected, &lines::run(input)), None, "{name}: second implementation");
    assert_eq!(difference(expected, &program::run(input)), None, "{name}: program");
}

/// What the second implementation writes for a join of these files, none where one can't be read.
pub fn joined(first: Option<&[u8]>, second: Option<&[u8]>) -> Vec<u8> {
    join::join(first, second, LENT).written
}

/// Asserts that both implementations write this for a join of these files, whichever comes first.
pub fn check_join(name: &str, [one, other]: [&Path; 2], expected: &[u8]) {
    for paths in [[one, other], [other, one]] {
        let [first, second] = paths.map(|path| fs::read(path).ok());
        let written = joined(first.as_deref(), second.as_deref());
        assert_eq!(difference(expected, &written), None, "{name}, {paths:?}: second implementation");
        assert_eq!(difference(expected, &program::join(&paths)), None, "{name}, {paths:?}: program");
    }
}

/// Asserts that both implementations answer each call as written beside it, several lines with newlines between.
pub fn check<Call: AsRef<[u8]>, Answer: AsRef<str>>(script: &[(Call, Answer)]) {
    let list = List {
        calls: script.iter().map(|(call, _)| call.as_ref().to_vec()).collect(),
        answers: script.iter().map(|(_, answer)| answer.as_ref().lines().map(String::from).collect()).collect(),
        network: 0,
    };
    assert_eq!(difference_from_list(&list, &lines::run(&list.input())), None, "second implementation");
    assert_eq!(difference_from_list(&list, &program::run(&list.input())), None, "program");
}
