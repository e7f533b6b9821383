//! What the steps in a list of calls meet of hop counts (#108), by the second implementation: the tests of random lists have to meet
//! all of it.

use crate::arrivals::stepped;
use crate::calculus::{Item, Packet, HOPS};
use crate::form::SESSIONS;
use crate::packets::{carriage, payload};
use crate::simulator::Simulator;
use std::collections::BTreeSet;

/// What a step leads to, but for Data out again. There is no other lost 2 on the wire: in a tunnel a Done goes the ways that Req went
/// before, and nothing else of a set-up has a header. A bare Done is left to what is met of drops (#109).
const STEPS: &str = "Disc bare, (lost 2)|Req bare, (lost 2)|Rep bare, (lost 2)|Data bare, (lost 2)|\
    Data in a tunnel, (lost 2)|header off with 31 left|header off with 30 to 26 left|header off with less left|\
    Done out again, (made)|Data delivered after it was out again";

/// What is there when Data is sent out again in a circle.
const BESIDE: &str = "round beside the set-up|round beside Data of another count|round beside Data of another session";

/// The most hops that are taken of Data, in a tunnel or about to be sent out again, on a way that ends: behind eight tunnels.
const TAKEN_ON_A_LINE: u64 = 7;

/// All that there is, with `|` between. Data is sent out again with every count, and lost only with none left.
pub fn kinds() -> String {
    let outs = (0..=HOPS).map(|left| data_out_again(left, if left > 0 { "(made)" } else { "(lost 2)" }));
    outs.chain([STEPS, BESIDE].map(String::from)).collect::<Vec<_>>().join("|")
}

fn data_out_again(left: u64, end: &str) -> String {
    format!("Data out again with {left} left, {end}")
}

/// What the calls meet, on a fresh second implementation.
pub fn met<Line: AsRef<[u8]>>(calls: &[Line]) -> BTreeSet<String> {
    let mut simulator = Simulator::new();
    calls.iter().flat_map(|call| step(&mut simulator, call.as_ref())).collect()
}

/// Makes the call; what it meets, if it is a step.
fn step(simulator: &mut Simulator, call: &[u8]) -> Vec<String> {
    let stepped = stepped(simulator, call);
    let beside = stepped.map(|(session, _, item)| beside(simulator, session, item)).unwrap_or_default();
    let answer = simulator.call(call).concat();
    let kind = stepped.and_then(|(_, _, item)| kind(item, &answer));
    beside.into_iter().map(String::from).chain(kind).collect()
}

fn kind(item: Item, answer: &str) -> Option<String> {
    let end = if answer.starts_with("(made ") { "(made)" } else { answer };
    match item {
        Item::Out { at, packet } if at == packet.source => None,
        Item::Out { packet, .. } if item.holds_data() => Some(data_out_again(packet.hops, end)),
        Item::Out { packet, .. } => Some(format!("{} out again, {end}", payload(&packet))),
        Item::Wire { packet, .. } if end == "(lost 2)" => {
            let packet = format!("{} {}", payload(&packet), carriage(&packet));
            (packet != "Done bare").then(|| format!("{packet}, {end}"))
        }
        Item::Up { packet, .. } if end != "(lost 4)" => arrival(&packet, end).map(String::from),
        _ => None,
    }
}

/// What is met by a packet whose header is taken off.
fn arrival(packet: &Packet, end: &str) -> Option<&'static str> {
    Some(match packet.header?.hops {
        _ if packet.hops < HOPS && end.starts_with("(delivered ") => "Data delivered after it was out again",
        31 => "header off with 31 left",
        26..=30 => "header off with 30 to 26 left",
        _ => "header off with less left",
    })
}

/// What there is beside Data that is sent out again in a circle, before the step.
fn beside(simulator: &Simulator, session: u64, item: Item) -> Vec<&'static str> {
    let (Item::Out { .. }, Some(left)) = (item, count_in_a_circle(&item)) else { return Vec::new() };
    let numbers = SESSIONS.flat_map(|other| simulator.pending(other).0.into_iter().map(move |number| (other, number)));
    let items = numbers.filter_map(|(other, number)| Some((other, simulator.item(other, number)?)));
    let kind = |(other, item): (u64, &Item)| match count_in_a_circle(item) {
        Some(_) if other != session => Some("round beside Data of another session"),
        Some(count) if count != left => Some("round beside Data of another count"),
        None if other == session && item.is_active() => Some("round beside the set-up"),
        _ => None,
    };
    items.filter_map(kind).collect()
}

/// The inner count of Data that goes round in tunnels, which is less than one that a way that ends leaves.
fn count_in_a_circle(item: &Item) -> Option<u64> {
    let packet = match item {
        Item::Out { packet, .. } => packet,
        Item::Wire { packet, .. } | Item::Up { packet, .. } if packet.header.is_some() => packet,
        _ => return None,
    };
    (item.holds_data() && packet.hops < HOPS - TAKEN_ON_A_LINE).then_some(packet.hops)
}
