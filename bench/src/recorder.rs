//! Lists of calls as they grow. Each call is run on the second implementation as it is chosen, so that the next one can
//! follow what is pending there, and so that an input's promise can be held against the answers.

use simulator_tests::simulator::Simulator;
use std::collections::BTreeMap;

#[derive(Default)]
pub struct Recorder {
    pub simulator: Simulator,
    pub calls: Vec<Vec<u8>>,
    /// how often each kind of answer came; see `kind`
    answers: BTreeMap<String, usize>,
}

impl Recorder {
    /// With the network's calls made; each is accepted.
    pub fn on(network: Vec<String>) -> Self {
        let mut recorder = Recorder::default();
        for call in network {
            assert_eq!(recorder.call(&call), "(ok)", "{call}");
        }
        recorder
    }

    /// Makes a call that is no show, and gives its answer.
    pub fn call(&mut self, line: impl AsRef<[u8]>) -> String {
        let line = line.as_ref();
        let answer = self.simulator.call(line).concat();
        *self.answers.entry(kind(&answer)).or_default() += 1;
        self.calls.push(line.to_vec());
        answer
    }

    pub fn open(&mut self, session: u64, (client, server): (u64, u64)) -> String {
        self.call(format!("(open {session} {client} {server})"))
    }

    pub fn step(&mut self, session: u64, item: u64) -> String {
        self.call(format!("(step {session} {item})"))
    }

    pub fn send(&mut self, session: u64, side: u64, tag: u64) -> String {
        self.call(format!("(send {session} {side} {tag})"))
    }

    pub fn close(&mut self, session: u64) -> String {
        self.call(format!("(close {session})"))
    }

    /// Steps the session's lowest item that is no wait, if there is one.
    pub fn step_lowest(&mut self, session: u64) -> Option<String> {
        let lowest = self.simulator.pending(session).0.first().copied();
        lowest.map(|item| self.step(session, item))
    }

    /// Opens the session and steps its lowest item until it is open.
    pub fn set_up(&mut self, session: u64, ends: (u64, u64)) {
        let mut answer = self.open(session, ends);
        while answer != "(opened)" {
            answer = self.step_lowest(session).expect("the set-up comes to its end");
        }
    }

    /// Sends Data and steps its item as long as it moves; the last answer.
    pub fn trip(&mut self, session: u64, side: u64, tag: u64) -> String {
        let mut answer = self.send(session, side, tag);
        while answer.starts_with("(made ") {
            answer = self.step(session, self.simulator.last(session));
        }
        answer
    }

    /// How many answers of this kind there were.
    pub fn count(&self, kind: &str) -> usize {
        self.answers.get(kind).copied().unwrap_or(0)
    }

    /// The kinds of answers that came.
    pub fn kinds(&self) -> Vec<&str> {
        self.answers.keys().map(String::as_str).collect()
    }
}

/// An answer's word; of a refusal or a loss its number too, such as `no 13`.
fn kind(answer: &str) -> String {
    let inner = answer.trim_matches(['(', ')']);
    let word = inner.split(' ').next().unwrap_or(inner);
    if word == "no" || word == "lost" { inner } else { word }.to_string()
}
