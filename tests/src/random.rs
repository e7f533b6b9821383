//! Deterministic random numbers, the settings that choose others, the run over many indexes, and what the runs met.

use std::collections::BTreeMap;
use std::thread;

/// splitmix64
pub struct Random(u64);

impl Random {
    /// A generator of its own for each index of a seed.
    pub fn new(seed: u64, index: u64) -> Self {
        let start = Random(seed).number();
        Random(Random(start ^ index).number())
    }

    pub fn number(&mut self) -> u64 {
        self.0 = self.0.wrapping_add(0x9e37_79b9_7f4a_7c15);
        let mixed = (self.0 ^ (self.0 >> 30)).wrapping_mul(0xbf58_476d_1ce4_e5b9);
        let mixed = (mixed ^ (mixed >> 27)).wrapping_mul(0x94d0_49bb_1331_11eb);
        mixed ^ (mixed >> 31)
    }

    pub fn below(&mut self, bound: u64) -> u64 {
        self.number() % bound
    }

    pub fn one_in(&mut self, bound: u64) -> bool {
        self.below(bound) == 0
    }

    pub fn index(&mut self, length: usize) -> usize {
        self.below(length as u64) as usize
    }

    pub fn pick<T: Copy>(&mut self, from: &[T]) -> T {
        from[self.index(from.len())]
    }

    pub fn shuffle<T>(&mut self, values: &mut [T]) {
        for end in (1..values.len()).rev() {
            values.swap(end, self.index(end + 1));
        }
    }
}

/// The number that the environment gives by this name, or else the default.
pub fn setting(name: &str, default: u64) -> u64 {
    match std::env::var(name) {
        Ok(text) => text.parse().unwrap_or_else(|_| panic!("{name} is no number: {text}")),
        Err(_) => default,
    }
}

/// What the work gives for each index below `count`, on two threads; the order is open.
pub fn for_each_index<T: Send>(count: u64, work: impl Fn(u64) -> T + Sync) -> Vec<T> {
    let work = &work;
    thread::scope(|scope| {
        let half = |first| scope.spawn(move || (first..count).step_by(2).map(work).collect::<Vec<T>>());
        let halves = [half(0), half(1)];
        halves.into_iter().flat_map(|half| half.join().expect("each index passes")).collect()
    })
}

/// Prints how many runs met each kind, and asserts, of enough runs, that each of the kinds named with `|` between was met.
pub fn check_met(met: impl IntoIterator<Item = String>, kinds: &str, enough: bool) {
    let mut runs: BTreeMap<String, u64> = BTreeMap::new();
    for kind in met {
        *runs.entry(kind).or_default() += 1;
    }
    println!("{runs:?}");
    let missing: Vec<_> = kinds.split('|').filter(|&kind| !runs.contains_key(kind)).collect();
    assert!(!enough || missing.is_empty(), "never met: {missing:?}");
}

/// The same, and asserts that nothing but these kinds was met.
pub fn check_met_alone(met: Vec<String>, kinds: &str, enough: bool) {
    let others: Vec<_> = met.iter().filter(|&kind| !kinds.split('|').any(|known| known == kind)).collect();
    assert!(others.is_empty(), "there should be none: {others:?}");
    check_met(met, kinds, enough);
}
