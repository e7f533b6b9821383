//! Cuts input into lines, and answers a whole input.

use crate::form::LONGEST;
use crate::simulator::Simulator;

/// Takes input in pieces of any size and keeps no more of a line than tells that it is too long.
#[derive(Default)]
pub struct Answerer {
    simulator: Simulator,
    line: Vec<u8>,
}

impl Answerer {
    /// The answers to the lines that end in this piece.
    pub fn feed(&mut self, piece: &[u8]) -> Vec<u8> {
        let mut output = Vec::new();
        for part in piece.split_inclusive(|&byte| byte == b'\n') {
            let (text, ended) = match part.strip_suffix(b"\n") {
                Some(text) => (text, true),
                None => (part, false),
            };
            let room = LONGEST + 1 - self.line.len();
            self.line.extend_from_slice(&text[..text.len().min(room)]);
            if ended {
                self.answer(&mut output);
            }
        }
        output
    }

    /// The answer to a last line that has no newline; an empty tail is no line.
    pub fn end(mut self) -> Vec<u8> {
        let mut output = Vec::new();
        if !self.line.is_empty() {
            self.answer(&mut output);
        }
        output
    }

    fn answer(&mut self, output: &mut Vec<u8>) {
        for line in self.simulator.call(&self.line) {
            output.extend_from_slice(line.as_bytes());
            output.push(b'\n');
        }
        self.line.clear();
    }
}

/// The second implementation's output for a whole input.
pub fn run(input: &[u8]) -> Vec<u8> {
    let mut answerer = Answerer::default();
    let mut output = answerer.feed(input);
    output.extend(answerer.end());
    output
}
