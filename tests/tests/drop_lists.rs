//! Random lists with drops (#109), on the program and the second implementation: they meet all that a drop can, and what comes
//! behind one. SEED and COUNT in the environment choose other lists.

use simulator_tests::compare::difference_from_list;
use simulator_tests::drops::{met, ACCEPTED, IN_A_CIRCLE, PACKETS, REFUSED};
use simulator_tests::lists::{drops, list, rounds, LateNetwork, List};
use simulator_tests::program;
use simulator_tests::random::{check_met_alone, for_each_index, setting};

const CALLS: usize = 400;

/// In circles of gateways nodes have rows of several establishments.
fn any_list(seed: u64, index: u64) -> List {
    match index % 4 {
        2 => drops(seed, index, LateNetwork::Yes),
        3 => rounds(seed, index, LateNetwork::Yes),
        _ => list(seed, index, CALLS, LateNetwork::Yes),
    }
}

#[test]
fn random_lists_meet_every_drop() {
    let (seed, count) = (setting("SEED", 21), setting("COUNT", 1000));
    let met = for_each_index(count, |index| {
        let list = any_list(seed, index);
        let output = program::run(&list.input());
        assert_eq!(difference_from_list(&list, &output), None, "SEED={seed}, list {index}");
        met(&list.calls)
    });
    let kinds = [ACCEPTED, REFUSED, PACKETS, IN_A_CIRCLE].join("|");
    check_met_alone(met.into_iter().flatten().collect(), &kinds, count >= 1000);
}
