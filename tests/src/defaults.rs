//! What a list of calls meets of default routes (#104), by the second implementation: the tests of random lists have to meet
//! all of it.

use crate::calculus::{Item, Packet};
use crate::compare::made;
use crate::form::Form;
use crate::network::DEFAULT;
use crate::packets::{carriage, payload};
use crate::simulator::Simulator;
use std::collections::{BTreeMap, BTreeSet};

/// What the steps on the wire meet. A step that does not look up meets a default beside it too, and says nothing of it.
pub const STEPS: &str = "Disc by default|Req by default|Rep by default|Done by default|Data by default|\
    bare by default|in a tunnel by default|exact beside a default|exact beside a default of the same next|\
    lost 1 beside a default|lost 2 by defaults|lost 2 by defaults and exact routes|lost 3 with a default elsewhere|\
    lost 3 after a default|up beside a default|begun beside a default";

/// What the calls that give a default meet.
pub const CALLS: &str = "default (ok)|default (no 2)|default (no 3) of the same next|default (no 3) of another next|\
    default (no 4) of at|default (no 4) of next|default (no 5)|default (no 8)";

/// What the calls meet, on a fresh second implementation.
pub fn met<Line: AsRef<[u8]>>(calls: &[Line]) -> BTreeSet<String> {
    let mut watch = Watch::default();
    for call in calls {
        watch.call(call.as_ref());
    }
    watch.met
}

/// How often a packet was moved since it was put on the wire.
#[derive(Clone, Copy, Default)]
struct Moves {
    exact: u64,
    by_default: u64,
}

#[derive(Default)]
struct Watch {
    simulator: Simulator,
    /// of the items on the wire that were moved, by session and number
    moves: BTreeMap<(u64, u64), Moves>,
    met: BTreeSet<String>,
}

impl Watch {
    fn call(&mut self, call: &[u8]) {
        match Form::read(call) {
            Some(Form::Route { at, destination: DEFAULT, next }) => self.default_route(call, at, next),
            Some(Form::Step { session, item }) => self.step(call, session, item),
            _ => drop(self.simulator.call(call)),
        }
    }

    fn meet(&mut self, kind: impl Into<String>) {
        self.met.insert(kind.into());
    }

    fn default_route(&mut self, call: &[u8], at: u64, next: u64) {
        let earlier = self.simulator.network().default_of(at);
        let answer = self.simulator.call(call).concat();
        let detail = match &answer[..] {
            "(no 3)" if earlier == Some(next) => " of the same next",
            "(no 3)" => " of another next",
            "(no 4)" if !self.simulator.network().knows(at) => " of at",
            "(no 4)" => " of next",
            _ => "",
        };
        self.meet(format!("default {answer}{detail}"));
    }

    fn step(&mut self, call: &[u8], session: u64, number: u64) {
        let item = self.simulator.item(session, number).copied();
        let answer = self.simulator.call(call).concat();
        let Some(Item::Wire { at, packet, .. }) = item else { return };
        let moves = self.moves.remove(&(session, number)).unwrap_or_default();
        let items = made(&answer);
        let first = items.first().and_then(|&made| self.simulator.item(session, made));
        if let Some(Item::Wire { at: next, .. }) = first.copied() {
            let by_default = answer.ends_with(" default)");
            if by_default {
                self.note_default(&packet);
            } else {
                self.note_exact(at, next);
            }
            let (exact, by_default) = (moves.exact + u64::from(!by_default), moves.by_default + u64::from(by_default));
            self.moves.insert((session, items[0]), Moves { exact, by_default });
        } else {
            self.note_end(at, moves, &answer);
        }
    }

    fn note_default(&mut self, packet: &Packet) {
        self.met.extend([payload(packet), carriage(packet)].map(|which| format!("{which} by default")));
    }

    fn note_exact(&mut self, at: u64, next: u64) {
        let Some(default) = self.simulator.network().default_of(at) else { return };
        self.meet("exact beside a default");
        if default == next {
            self.meet("exact beside a default of the same next");
        }
    }

    /// Notes a step that does not move the packet.
    fn note_end(&mut self, at: u64, moves: Moves, answer: &str) {
        let network = self.simulator.network();
        let beside = network.default_of(at).is_some();
        let elsewhere = network.nodes.keys().any(|&node| node != at && network.default_of(node).is_some());
        match answer {
            "(lost 1)" if beside => self.meet("lost 1 beside a default"),
            "(lost 2)" if moves.exact == 0 => self.meet("lost 2 by defaults"),
            "(lost 2)" if moves.by_default > 0 => self.meet("lost 2 by defaults and exact routes"),
            "(lost 3)" if moves.by_default > 0 => {
                self.met.extend(["lost 3 with a default elsewhere", "lost 3 after a default"].map(String::from));
            }
            "(lost 3)" if elsewhere => self.meet("lost 3 with a default elsewhere"),
            _ => match made(answer).len() {
                1 if beside => self.meet("up beside a default"),
                2 if beside => self.meet("begun beside a default"),
                _ => {}
            },
        }
    }
}
