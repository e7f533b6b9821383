//! Two networks made one (#106): each file is read on a fresh simulator, and the maps of the two networks are united.

use crate::network::Network;
use crate::simulator::Simulator;
use std::collections::BTreeMap;

/// The fewest bytes of output that must be lent.
const LEAST_OUTPUT: usize = 65_536;

const SHORT: u8 = 0;
const CLASH: u8 = 14;
const UNSORTED: u8 = 15;

/// What a join writes, and the refusal's number if it is refused.
#[derive(Clone, Debug, PartialEq)]
pub struct Joined {
    pub written: Vec<u8>,
    pub refusal: Option<u8>,
}

/// Joins two files' bytes, none where a file can't be read, with `size` bytes of output lent. Refused as short, it
/// writes nothing.
pub fn join(first: Option<&[u8]>, second: Option<&[u8]>, size: usize) -> Joined {
    match united(first, second, size) {
        Ok(network) => Joined { written: text(&network), refusal: None },
        Err(SHORT) => Joined { written: Vec::new(), refusal: Some(SHORT) },
        Err(refusal) => Joined { written: format!("(no {refusal})\n").into_bytes(), refusal: Some(refusal) },
    }
}

/// Every node and route of either file, or the refusal's number.
fn united(first: Option<&[u8]>, second: Option<&[u8]>, size: usize) -> Result<Network, u8> {
    if size < LEAST_OUTPUT {
        return Err(SHORT);
    }
    let mut all = first.and_then(network).ok_or(UNSORTED)?;
    let other = second.and_then(network).ok_or(UNSORTED)?;
    if differ(&all.nodes, &other.nodes) || differ(&all.routes, &other.routes) {
        return Err(CLASH);
    }
    all.nodes.extend(other.nodes);
    all.routes.extend(other.routes);
    Ok(all)
}

/// The network that the file gives, or none if the file is not as `(net)` writes it.
fn network(file: &[u8]) -> Option<Network> {
    let mut simulator = Simulator::new();
    let mut lines = file.split_inclusive(|&byte| byte == b'\n').map(|line| line.strip_suffix(b"\n").unwrap_or(line));
    let accepted = lines.all(|line| simulator.call(line) == ["(ok)"]);
    let network = simulator.network();
    (accepted && text(network) == file).then(|| network.clone())
}

/// The network's forms, a line each.
fn text(network: &Network) -> Vec<u8> {
    network.forms().into_iter().flat_map(|form| (form + "\n").into_bytes()).collect()
}

/// Whether a key that both maps have stands for two values.
fn differ<Key: Ord, Value: PartialEq>(first: &BTreeMap<Key, Value>, second: &BTreeMap<Key, Value>) -> bool {
    first.iter().any(|(key, value)| second.get(key).is_some_and(|other| other != value))
}
