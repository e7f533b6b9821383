//! Random lists in which tunnels are dropped on the way (#109).

use super::{Generator, LateNetwork, List};
use crate::random::Random;
use crate::topology::Topology;

/// The list of this seed and index: sessions over a few gateways, set up again and again with drops between, mixed with other calls.
pub fn drops(seed: u64, index: u64, late: LateNetwork) -> List {
    let mut random = Random::new(seed, index);
    let topology = Topology::other_way_back(&mut random);
    let mix = random.pick(&[(96, 2), (80, 18)]);
    let sessions = random.pick(&[1, 2, 3]);
    let length = sessions as usize * 300;
    let mut generator = Generator::new(random, topology, mix, sessions, late);
    generator.drops = (generator.random.pick(&[25, 100]), 4);
    generator.give_network();
    generator.next_calls(length);
    generator.list
}
