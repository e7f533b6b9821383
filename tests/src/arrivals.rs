//! What the steps of up in a list of calls meet (#107), by the second implementation: the tests of random lists have to meet all
//! of it.

use crate::calculus::{Item, Packet};
use crate::compare::made;
use crate::form::Form;
use crate::packets::{carriage, payload};
use crate::simulator::Simulator;
use std::collections::BTreeSet;

/// What a step of up leads to, with what it takes. There is nothing else: Req and Rep are bare, and what is bare has come to its
/// destination. A Done has the rows that it needs, and is bare or lost only where they were dropped (#109).
pub const STEPS: &str = "Req bare, auth|Rep bare, auth|Done in a tunnel, out|Done in a tunnel, (opened)|\
    Done in a tunnel, (lost 4)|Done in a tunnel, (lost 4) though the association stands|Done bare, (lost 5)|\
    Done bare, (opened)|\
    Data in a tunnel, (lost 4)|Data in a tunnel, (lost 4) though the association stands|Data bare, (lost 5)|\
    Data in a tunnel, (lost 5)|Data in a tunnel, out|Data bare, (delivered)|Data in a tunnel, (delivered)";

/// What the calls meet, on a fresh second implementation.
pub fn met<Line: AsRef<[u8]>>(calls: &[Line]) -> BTreeSet<String> {
    let mut simulator = Simulator::new();
    calls.iter().filter_map(|call| arrival(&mut simulator, call.as_ref())).collect()
}

/// The session, the number and the item that a call steps, if it pends.
pub fn stepped(simulator: &Simulator, call: &[u8]) -> Option<(u64, u64, Item)> {
    match Form::read(call) {
        Some(Form::Step { session, item: number }) => {
            simulator.item(session, number).map(|&item| (session, number, item))
        }
        _ => None,
    }
}

/// Makes the call; what it meets, if it is a step of up.
fn arrival(simulator: &mut Simulator, call: &[u8]) -> Option<String> {
    let stepped = stepped(simulator, call);
    let answer = simulator.call(call).concat();
    let (session, _, Item::Up { at, packet }) = stepped? else { return None };
    let end = match made(&answer).first().and_then(|&number| simulator.item(session, number)).copied() {
        Some(Item::Out { .. }) => "out",
        Some(Item::Auth { .. }) => "auth",
        _ if answer.starts_with("(delivered ") => "(delivered)",
        _ if answer == "(lost 4)" && stands(simulator, at, &packet) => "(lost 4) though the association stands",
        _ => &answer,
    };
    Some(format!("{} {}, {end}", payload(&packet), carriage(&packet)))
}

/// Whether the association stands by which the packet comes to the node, whoever its users are.
pub fn stands(simulator: &mut Simulator, at: u64, packet: &Packet) -> bool {
    let from = packet.header.map(|header| format!("(assoc {at} in {} ", header.from));
    from.is_some_and(|from| simulator.call(b"(show)").iter().any(|line| line.starts_with(&from)))
}
