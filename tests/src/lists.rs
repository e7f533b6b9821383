//! Random lists of calls. Each call is run on the second implementation as it is chosen, so that the next one can follow
//! what is pending there.

use crate::calculus::CEILING;
use crate::damage::damaged;
use crate::form::SESSIONS;
use crate::network::{route_form, Node, DEFAULT};
use crate::random::Random;
use crate::simulator::Simulator;
use crate::topology::Topology;
use std::collections::BTreeSet;

mod drops;
mod rounds;
pub use drops::drops;
pub use rounds::rounds;

/// Calls, without newlines, and the second implementation's answers.
#[derive(Default)]
pub struct List {
    pub calls: Vec<Vec<u8>>,
    pub answers: Vec<Vec<String>>,
    /// how many calls, from the first, give the network
    pub network: usize,
}

impl List {
    pub fn input(&self) -> Vec<u8> {
        input(&self.calls)
    }
}

/// The calls as lines.
pub fn input<Line: AsRef<[u8]>>(calls: &[Line]) -> Vec<u8> {
    calls.iter().flat_map(|call| call.as_ref().iter().copied().chain([b'\n'])).collect()
}

/// Whether the network's calls and others are mixed, or the network's come first and alone.
#[derive(Clone, Copy, PartialEq)]
pub enum LateNetwork {
    Yes,
    No,
}

/// The list of this seed and index: a network, for every other list a set-up, then `length` calls or a few more.
pub fn list(seed: u64, index: u64, length: usize, late: LateNetwork) -> List {
    let mut random = Random::new(seed, index);
    let topology = Topology::new(&mut random);
    // Of 100 calls, how many step the lowest item, and how many any item. Only the first get far.
    let (lowest, any) = random.pick(&[(96, 2), (90, 7), (60, 30), (15, 75), (10, 20)]);
    let sessions = random.pick(&[1, 1, 2, 2, 3, 5, 8]);
    let mut generator = Generator::new(random, topology, (lowest, any), sessions, late);
    generator.give_network();
    if generator.random.one_in(2) {
        generator.drive_set_up();
    }
    generator.next_calls(length);
    generator.list
}

/// The list of this seed and index: set-ups over detours, mixed with other calls, and at last driven to their ends.
pub fn set_ups(seed: u64, index: u64) -> List {
    let mut random = Random::new(seed, index);
    let topology = Topology::detours(&mut random);
    let mix = random.pick(&[(96, 2), (85, 10)]);
    let sessions = random.pick(&[1, 2, 4, 8]);
    let length = random.pick(&[50, 500, 2000]);
    let mut generator = Generator::new(random, topology, mix, sessions, LateNetwork::No);
    generator.give_network();
    generator.next_calls(length);
    generator.drive_to_ends();
    generator.list
}

struct Generator {
    random: Random,
    simulator: Simulator,
    topology: Topology,
    list: List,
    lowest: u64,
    any: u64,
    sessions: u64,
    /// one in so many calls that go on with a session drops a tunnel instead, and one in so many of those while its Done pends
    drops: (u64, u64),
    late: LateNetwork,
}

/// Numbers at and near the edges of every range, and some between.
const EDGES: [u64; 21] = [
    0, 1, 2, 3, 7, 8, 9, 31, 32, 33, 63, 64, 256, 999_999, 1_000_000, 1_000_001, 4_294_967_295, 4_294_967_296,
    4_294_967_297, 9_999_999_998, 9_999_999_999,
];

impl Generator {
    fn new(mut random: Random, topology: Topology, mix: (u64, u64), sessions: u64, late: LateNetwork) -> Self {
        let (lowest, any) = mix;
        // A dropped tunnel mostly loses Done and Data, so half of the lists hardly drop any on the way.
        let drops = random.pick(&[(25, 4), (100, 4), (1_000_000, 1_000_000), (1_000_000, 1_000_000)]);
        let (simulator, list) = (Simulator::new(), List::default());
        Generator { random, simulator, topology, list, lowest, any, sessions, drops, late }
    }

    fn give_network(&mut self) {
        for call in self.topology.calls.clone() {
            if self.late == LateNetwork::Yes && self.random.one_in(30) {
                // before the first node it writes nothing
                self.call("(net)");
            }
            self.call(&call);
            if self.random.one_in(30) {
                self.network_call();
            }
            if self.late == LateNetwork::Yes && self.random.one_in(300) {
                // it may be an open, after which the rest of the network is refused
                self.anything();
            }
        }
        self.list.network = self.list.calls.len();
    }

    fn call(&mut self, line: impl AsRef<[u8]>) {
        let line = line.as_ref();
        self.list.answers.push(self.simulator.call(line));
        self.list.calls.push(line.to_vec());
        assert!(
            SESSIONS.into_iter().all(|session| self.simulator.set_up_steps(session) <= CEILING),
            "the ceiling is passed"
        );
    }

    /// Drives one session as far as its set-up goes: purely random steps seldom get there.
    fn drive_set_up(&mut self) {
        let session = self.session();
        self.open(session);
        while let Some(&item) = self.simulator.pending(session).0.first() {
            self.step(session, item);
        }
    }

    /// Drives every set-up to its end, in any order and with odd steps and drops between, until no session has an active
    /// item: by the ceiling there is an end, and what goes past it is for the test to see.
    fn drive_to_ends(&mut self) {
        let most_steps = CEILING * *SESSIONS.end();
        let most_others = most_steps;
        for _ in 0..most_steps + most_others {
            let under_way: Vec<u64> = SESSIONS.filter(|&session| !self.simulator.active(session).is_empty()).collect();
            if under_way.is_empty() {
                return;
            }
            let session = self.random.pick(&under_way);
            if self.random.one_in(20) {
                self.step_oddly(session);
            } else if self.drops_now(session) {
                self.drop_tunnel(session);
            } else {
                let item = self.random.pick(&self.simulator.active(session));
                self.step(session, item);
            }
        }
    }

    fn next_calls(&mut self, length: usize) {
        let end = self.list.calls.len() + length;
        while self.list.calls.len() < end {
            self.next_call();
        }
    }

    fn next_call(&mut self) {
        let roll = self.random.below(100);
        if roll < self.lowest {
            self.drive();
        } else if roll < self.lowest + self.any {
            self.step_any();
        } else {
            self.anything();
        }
    }

    fn session(&mut self) -> u64 {
        1 + self.random.below(self.sessions)
    }

    /// Goes on with the lowest item that is no wait.
    fn drive(&mut self) {
        let session = self.session();
        let (steppable, _) = self.simulator.pending(session);
        let send = self.simulator.in_use(session) && self.random.one_in(25);
        self.go_on(session, send, steppable.first().copied());
    }

    /// Sends, or steps the item, or now and then drops a tunnel. An idle session is opened; one with nothing to step sends,
    /// drops or closes.
    fn go_on(&mut self, session: u64, send: bool, item: Option<u64>) {
        if !self.simulator.in_use(session) {
            self.open(session);
        } else if self.drops_now(session) {
            self.drop_tunnel(session);
        } else if let Some(item) = item.filter(|_| !send) {
            self.step(session, item);
        } else if !send && self.random.one_in(5) {
            self.close(session);
        } else if !send && self.random.one_in(8) {
            self.drop_tunnel(session);
        } else {
            self.send(session);
        }
    }

    fn step_any(&mut self) {
        let session = self.session();
        let (steppable, _) = self.simulator.pending(session);
        if steppable.is_empty() {
            self.drive();
        } else {
            let item = self.random.pick(&steppable);
            self.step(session, item);
        }
    }

    fn anything(&mut self) {
        let session = 1 + self.random.below(8);
        match self.random.below(24) {
            0..=2 => self.open(session),
            3..=5 => self.step_oddly(session),
            6..=7 => self.send(session),
            8 => self.send_beyond_limit(),
            9 => self.close(session),
            10..=12 => self.call("(show)"),
            13..=15 => self.call("(net)"),
            16..=17 if self.late == LateNetwork::Yes => self.network_call(),
            18..=19 => self.edge_numbers(),
            20 => self.drop_oddly(),
            _ => self.damage(),
        }
    }

    fn open(&mut self, session: u64) {
        let (client, server) = match self.random.below(20) {
            0..=13 => self.topology.ends,
            14..=15 => (self.topology.ends.1, self.topology.ends.0),
            16..=17 => (self.random.pick(&self.topology.hosts), self.random.pick(&self.topology.hosts)),
            18 => (self.random.pick(&self.topology.nodes), self.random.pick(&self.topology.nodes)),
            _ => (1 + self.random.below(32), 1 + self.random.below(32)),
        };
        self.call(format!("(open {session} {client} {server})"));
    }

    fn step(&mut self, session: u64, item: u64) {
        self.call(format!("(step {session} {item})"));
    }

    /// Steps a wait, a number that was used up, or any other.
    fn step_oddly(&mut self, session: u64) {
        let (_, waits) = self.simulator.pending(session);
        let issued = self.simulator.last(session);
        let item = match self.random.below(3) {
            0 if !waits.is_empty() => self.random.pick(&waits),
            1 => 1 + self.random.below(issued + 2),
            _ => self.random.pick(&EDGES),
        };
        self.step(session, item);
    }

    fn send(&mut self, session: u64) {
        let side = self.random.below(2);
        let tag = match self.random.below(3) {
            0 => self.random.pick(&EDGES),
            _ => self.random.below(1 << 32),
        };
        self.call(format!("(send {session} {side} {tag})"));
    }

    fn send_beyond_limit(&mut self) {
        let session = self.session();
        for _ in 0..14 {
            self.send(session);
        }
    }

    fn close(&mut self, session: u64) {
        self.call(format!("(close {session})"));
    }

    /// Whether a call that goes on with the session is to drop a tunnel. Done pends for few of them.
    fn drops_now(&mut self, session: u64) -> bool {
        let (mostly, beside_done) = self.drops;
        let one_in = if self.simulator.done_pends(session) { beside_done } else { mostly };
        self.random.one_in(one_in)
    }

    /// Drops a tunnel that stands, or the newest establishment, which a set-up keeps busy, or any up to the next.
    fn drop_tunnel(&mut self, session: u64) {
        let tunnels = self.simulator.tunnels(session);
        let begun = self.simulator.begun(session);
        let establishment = match self.random.below(8) {
            0..=2 if !tunnels.is_empty() => self.random.pick(&tunnels),
            0..=6 => begun.max(1),
            _ => 1 + self.random.below(begun + 1),
        };
        self.call(drop_form(session, establishment));
    }

    /// Drops any establishment of any session, in range or just outside.
    fn drop_oddly(&mut self) {
        let (session, establishment) = (self.random.below(10), self.random.below(10));
        self.call(drop_form(session, establishment));
    }

    fn network_call(&mut self) {
        let call = match self.random.below(5) {
            0..=1 => self.any_node(),
            2..=3 => self.any_route(),
            // before its place, or again
            _ => self.topology.calls[self.random.index(self.topology.calls.len())].clone(),
        };
        self.call(call);
    }

    fn any_node(&mut self) -> String {
        let mut credentials = || (0..self.random.below(4)).map(|_| self.random.below(65)).collect::<BTreeSet<_>>();
        let (has, needs) = (credentials(), credentials());
        Node { gateway: self.random.one_in(2), has, needs }.form(1 + self.random.below(32))
    }

    fn any_route(&mut self) -> String {
        let mut node = || match self.random.below(8) {
            0 => 1 + self.random.below(32),
            _ => self.random.pick(&self.topology.nodes),
        };
        let (at, destination, next) = (node(), node(), node());
        // one in three gives a default
        route_form(at, self.random.pick(&[destination, destination, DEFAULT]), next)
    }

    /// A form with numbers from the edges of the ranges.
    fn edge_numbers(&mut self) {
        let mut edge = || self.random.pick(&EDGES[..]);
        let forms = [
            format!("(open {} {} {})", edge(), edge(), edge()),
            format!("(step {} {})", edge(), edge()),
            format!("(send {} {} {})", edge(), edge(), edge()),
            format!("(close {})", edge()),
            drop_form(edge(), edge()),
            format!("(route {} {} {})", edge(), edge(), edge()),
            format!("(route {} {DEFAULT} {})", edge(), edge()),
            format!("(node {} host (has {} {}) (needs {}))", edge(), edge(), edge(), edge()),
        ];
        let allowed = if self.late == LateNetwork::Yes { forms.len() } else { 5 };
        let form = self.random.index(allowed);
        self.call(&forms[form]);
    }

    fn damage(&mut self) {
        if self.random.one_in(8) {
            return self.call("");
        }
        let session = self.session();
        let forms = [
            format!("(open {session} {} {})", self.topology.ends.0, self.topology.ends.1),
            format!("(step {session} {})", self.simulator.last(session)),
            format!("(send {session} {} 77)", self.random.below(2)),
            format!("(close {session})"),
            drop_form(session, 1 + self.random.below(8)),
            "(show)".to_string(),
            "(net)".to_string(),
            self.any_route(),
            self.any_node(),
        ];
        let allowed = if self.late == LateNetwork::Yes { forms.len() } else { 7 };
        let form = self.random.index(allowed);
        let line = damaged(&mut self.random, &forms[form]);
        self.call(line);
    }
}

fn drop_form(session: u64, establishment: u64) -> String {
    format!("(drop {session} {establishment})")
}
