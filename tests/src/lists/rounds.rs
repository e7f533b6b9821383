//! Random lists with circles of gateways, in which Data goes round (#108).

use super::{Generator, LateNetwork, List};
use crate::calculus::{Item, HOPS};
use crate::random::Random;
use crate::topology::Topology;

/// The list of this seed and index: sessions in a circle of gateways, with Data that goes round, mixed with other calls.
pub fn rounds(seed: u64, index: u64, late: LateNetwork) -> List {
    let mut random = Random::new(seed, index);
    let topology = Topology::circle(&mut random);
    // Of 100 calls, how many go on with a set-up, and how many with Data.
    let mix = random.pick(&[(80, 18), (65, 33), (30, 67)]);
    let sessions = random.pick(&[1, 2, 3]);
    let length = sessions * random.pick(&[400, 800, 1200]);
    let mut generator = Generator::new(random, topology, mix, sessions, late);
    generator.give_network();
    for _ in 0..length {
        generator.go_round();
    }
    generator.list
}

impl Generator {
    /// Goes on with a set-up, or with Data beside it and behind it.
    fn go_round(&mut self) {
        let session = self.session();
        let set_up = self.simulator.active(session).first().copied();
        let data = self.data_to_step(session, set_up.is_some());
        let roll = self.random.below(100);
        if roll >= self.lowest + self.any {
            return self.anything();
        }
        let send = set_up.is_some() && self.random.one_in(30);
        let item = if roll < self.lowest { set_up.or(data) } else { data.or(set_up) };
        self.go_on(session, send, item);
    }

    /// The newest Data of a session, or the lowest, or any. While the set-up goes on, Data mostly waits where it is first sent out
    /// again: where the circle is not closed yet, it would be lost.
    fn data_to_step(&mut self, session: u64, set_up: bool) -> Option<u64> {
        let waits = set_up && !self.random.one_in(30);
        let (mut data, _) = self.simulator.pending(session);
        data.retain(|&number| match self.simulator.item(session, number) {
            Some(Item::Out { at, packet }) if waits && *at != packet.source => packet.hops < HOPS,
            item => item.is_some_and(Item::holds_data),
        });
        match self.random.below(6) {
            0 if !data.is_empty() => Some(self.random.pick(&data)),
            0..=2 => data.first().copied(),
            _ => data.last().copied(),
        }
    }
}
