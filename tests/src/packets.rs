//! The words by which the tests name what packets do.

use crate::calculus::{Packet, Payload};

/// What the packet holds, without numbers.
pub fn payload(packet: &Packet) -> &'static str {
    match packet.payload {
        Payload::Req(_) => "Req",
        Payload::Rep(_) => "Rep",
        Payload::Disc(_) => "Disc",
        Payload::Done => "Done",
        Payload::Data(_) => "Data",
    }
}

/// How the packet goes.
pub fn carriage(packet: &Packet) -> &'static str {
    if packet.header.is_some() {
        "in a tunnel"
    } else {
        "bare"
    }
}
