//! Packets, items, rows and the rule of each kind of item.

use crate::network::{LookUp, Network};
use std::collections::BTreeMap;

/// The hops that a packet starts with, and that a header brings.
pub const HOPS: u64 = 32;
pub const MOST_ESTABLISHMENTS: u64 = 8;

/// The most steps that a packet takes on the wire by one count: one at each number of hops left, from all to none.
const WIRE_STEPS: u64 = HOPS + 1;
/// The most that it takes from one end of a tunnel to the other, or bare: out, on the wire, up.
const WAY_STEPS: u64 = 1 + WIRE_STEPS + 1;
/// Disc on the wire, est, Req, auth, grant, Rep, auth, grant, ack.
const ESTABLISHMENT_STEPS: u64 = WIRE_STEPS + 1 + WAY_STEPS + 1 + 1 + WAY_STEPS + 1 + 1 + 1;
/// The ceiling of a set-up's steps (#103): all the establishments, and a Done back through their tunnels.
pub const CEILING: u64 = MOST_ESTABLISHMENTS * ESTABLISHMENT_STEPS + MOST_ESTABLISHMENTS * WAY_STEPS;

const FIRST_SPI: u64 = 256;
const SPI_STRIDE: u64 = 32;

#[derive(Clone, Copy, Debug, PartialEq)]
pub enum Payload {
    Req(u64),
    Rep(u64),
    /// of the last tunnel point
    Disc(u64),
    Done,
    Data(u64),
}

impl Payload {
    fn names(&self, establishment: u64) -> bool {
        matches!(self, Payload::Req(named) | Payload::Rep(named) if *named == establishment)
    }
}

#[derive(Clone, Copy, Debug, PartialEq)]
pub struct Header {
    pub from: u64,
    pub to: u64,
    pub spi: u64,
    /// the outer count of hops left, in use while the header is on
    pub hops: u64,
}

#[derive(Clone, Copy, Debug, PartialEq)]
pub struct Packet {
    pub source: u64,
    pub destination: u64,
    pub payload: Payload,
    /// the inner count of hops left, which a header leaves as it is
    pub hops: u64,
    pub header: Option<Header>,
}

impl Packet {
    /// A new packet, with all its hops.
    pub fn bare(source: u64, destination: u64, payload: Payload) -> Self {
        Packet { source, destination, payload, hops: HOPS, header: None }
    }

    /// The count in use (#108): the header's while it is on, else the inner one.
    fn count_in_use(&mut self) -> &mut u64 {
        match &mut self.header {
            Some(header) => &mut header.hops,
            None => &mut self.hops,
        }
    }

    /// The packet with one taken from the count in use, or none if that is already 0, which is lost 2.
    fn one_hop_on(mut self) -> Option<Self> {
        let count = self.count_in_use();
        *count = count.checked_sub(1)?;
        Some(self)
    }
}

#[derive(Clone, Copy, Debug, PartialEq)]
pub enum Side {
    Initiator,
    Responder,
}

#[derive(Clone, Copy, Debug, PartialEq)]
pub enum Item {
    Wire { at: u64, packet: Packet },
    Out { at: u64, packet: Packet },
    Up { at: u64, packet: Packet },
    Est { at: u64, peer: u64, establishment: u64 },
    Auth { at: u64, peer: u64, establishment: u64, side: Side },
    Grant { at: u64, peer: u64, establishment: u64, side: Side },
    Ack { at: u64, establishment: u64 },
    Dwait { at: u64 },
    Ewait { at: u64, establishment: u64 },
}

impl Item {
    pub fn waits(&self) -> bool {
        matches!(self, Item::Dwait { .. } | Item::Ewait { .. })
    }

    /// The packet of an item that holds one.
    pub fn packet(&self) -> Option<&Packet> {
        match self {
            Item::Wire { packet, .. } | Item::Out { packet, .. } | Item::Up { packet, .. } => Some(packet),
            _ => None,
        }
    }

    pub fn holds_data(&self) -> bool {
        self.packet().is_some_and(|packet| matches!(packet.payload, Payload::Data(_)))
    }

    /// Whether it names the establishment, so that this can't be dropped (#109).
    pub fn names(&self, establishment: u64) -> bool {
        match self {
            Item::Wire { packet, .. } | Item::Out { packet, .. } | Item::Up { packet, .. } => {
                packet.payload.names(establishment)
            }
            Item::Est { establishment: named, .. }
            | Item::Auth { establishment: named, .. }
            | Item::Grant { establishment: named, .. }
            | Item::Ack { establishment: named, .. }
            | Item::Ewait { establishment: named, .. } => *named == establishment,
            Item::Dwait { .. } => false,
        }
    }

    /// Whether it is an item of the set-up that can be stepped: neither a wait nor Data.
    pub fn is_active(&self) -> bool {
        !self.waits() && !self.holds_data()
    }
}

/// In stands before out: the order of associations goes by it.
#[derive(Clone, Copy, Debug, PartialEq, Eq, PartialOrd, Ord)]
pub enum Direction {
    In,
    Out,
}

/// In(node, peer) or Out(node, peer). The derived order, which goes by the fields as they stand here, is show's (#102): by
/// node, then in before out, then by peer.
#[derive(Clone, Copy, Debug, PartialEq, Eq, PartialOrd, Ord)]
pub struct Association {
    pub node: u64,
    pub direction: Direction,
    pub peer: u64,
}

impl Association {
    /// The SPI of what the receiver of the two gets from the other.
    pub fn spi(&self) -> u64 {
        let (receiver, sender) = match self.direction {
            Direction::In => (self.node, self.peer),
            Direction::Out => (self.peer, self.node),
        };
        FIRST_SPI + SPI_STRIDE * (receiver - 1) + (sender - 1)
    }
}

#[derive(Clone, Copy, Debug, PartialEq)]
pub struct Row {
    pub association: Association,
    /// source and destination
    pub filter: (u64, u64),
    pub establishment: u64,
}

/// What a step leads to.
pub enum Outcome {
    Made(Vec<Item>),
    /// on the wire, moved by a default route
    MadeByDefault(Item),
    Lost(u64),
    Denied,
    Opened,
    Delivered(u64),
}

/// A session in use. Its stage is read by no rule and no request, so it is not kept.
pub struct Session {
    pub client: u64,
    pub server: u64,
    /// pending, by number
    pub items: BTreeMap<u64, Item>,
    /// oldest first
    pub rows: Vec<Row>,
    /// a drop leaves it: its establishment still counts as begun
    pub begun: u64,
}

impl Session {
    pub fn new(client: u64, server: u64) -> Self {
        Session { client, server, items: BTreeMap::new(), rows: Vec::new(), begun: 0 }
    }

    /// What an open writes, and an ack at a gateway: each time a new packet.
    pub fn discovery(&self, at: u64) -> Item {
        Item::Wire { at, packet: Packet::bare(self.client, self.server, Payload::Disc(at)) }
    }

    /// What a send writes: side 0 is the client's.
    pub fn data(&self, side: u64, tag: u64) -> Item {
        let (at, to) = if side == 0 { (self.client, self.server) } else { (self.server, self.client) };
        Item::Out { at, packet: Packet::bare(at, to, Payload::Data(tag)) }
    }

    /// Removes the rows that the establishment added, at both nodes or at the one that granted (#109); whether there were any.
    /// The others keep their order.
    pub fn remove_rows(&mut self, establishment: u64) -> bool {
        let before = self.rows.len();
        self.rows.retain(|row| row.establishment != establishment);
        self.rows.len() < before
    }

    /// Applies the item's rule; the item itself is already taken off.
    pub fn apply(&mut self, item: Item, network: &Network) -> Outcome {
        match item {
            Item::Wire { at, packet } => self.wire(at, packet, network),
            Item::Out { at, packet } => self.out(at, packet),
            Item::Up { at, packet } => self.up(at, packet),
            Item::Est { at, peer, establishment } => Outcome::Made(vec![
                Item::Out { at, packet: Packet::bare(at, peer, Payload::Req(establishment)) },
                Item::Ewait { at, establishment },
            ]),
            Item::Auth { at, peer, establishment, side } if network.accepts(at, peer) => {
                made(Item::Grant { at, peer, establishment, side })
            }
            Item::Auth { .. } => Outcome::Denied,
            Item::Grant { at, peer, establishment, side } => self.grant(at, peer, establishment, side),
            Item::Ack { at, .. } => self.acknowledge(at),
            Item::Dwait { .. } | Item::Ewait { .. } => unreachable!("a wait is refused before"),
        }
    }

    fn wire(&mut self, at: u64, packet: Packet, network: &Network) -> Outcome {
        let to = packet.header.map_or(packet.destination, |header| header.to);
        let gateway = network.is_gateway(at);
        if let Payload::Disc(point) = packet.payload {
            if at != point && (gateway || at == self.server) {
                return self.begin(at, point);
            }
        }
        if at == to {
            return made(Item::Up { at, packet });
        }
        if gateway && packet.header.is_none() && matches!(packet.payload, Payload::Data(_) | Payload::Done) {
            return Outcome::Lost(1);
        }
        let Some(packet) = packet.one_hop_on() else {
            return Outcome::Lost(2);
        };
        let moved = |next: u64| Item::Wire { at: next, packet };
        match network.look_up(at, to) {
            LookUp::Exact(next) => made(moved(next)),
            LookUp::Default(next) => Outcome::MadeByDefault(moved(next)),
            LookUp::None => Outcome::Lost(3),
        }
    }

    fn begin(&mut self, at: u64, peer: u64) -> Outcome {
        if self.begun == MOST_ESTABLISHMENTS {
            return Outcome::Lost(6);
        }
        self.begun += 1;
        Outcome::Made(vec![Item::Dwait { at }, Item::Est { at, peer, establishment: self.begun }])
    }

    /// A node that didn't create the packet sends it out again: this takes one from the inner count before any row is
    /// read, so also where the packet then goes bare (#108). What comes here is bare, so the inner count is the one in
    /// use, and it is no Disc, so its source created it.
    fn out(&self, at: u64, packet: Packet) -> Outcome {
        let sent = if at == packet.source { Some(packet) } else { packet.one_hop_on() };
        let Some(packet) = sent else {
            return Outcome::Lost(2);
        };
        let header = self.newest_match(at, Direction::Out, &packet).map(|row| Header {
            from: at,
            to: row.association.peer,
            spi: row.association.spi(),
            hops: HOPS,
        });
        made(Item::Wire { at, packet: Packet { header, ..packet } })
    }

    /// Lost 4 is tested before lost 5 (#107). A row of this session is itself a user of its association, so the
    /// association of such a row stands. The outer count goes with the header, and the inner one goes on (#108).
    fn up(&mut self, at: u64, packet: Packet) -> Outcome {
        let Some(header) = packet.header else {
            return self.receive(at, packet, None);
        };
        let association = Association { node: at, direction: Direction::In, peer: header.from };
        if self.rows.iter().any(|row| row.association == association) {
            self.receive(at, Packet { header: None, ..packet }, Some(header.from))
        } else {
            Outcome::Lost(4)
        }
    }

    fn receive(&mut self, at: u64, packet: Packet, via: Option<u64>) -> Outcome {
        if self.newest_match(at, Direction::In, &packet).map(|row| row.association.peer) != via {
            return Outcome::Lost(5);
        }
        if packet.destination != at {
            return made(Item::Out { at, packet });
        }
        let peer = packet.source;
        match packet.payload {
            Payload::Req(establishment) => made(Item::Auth { at, peer, establishment, side: Side::Responder }),
            Payload::Rep(establishment) => {
                self.use_up(Item::Ewait { at, establishment });
                made(Item::Auth { at, peer, establishment, side: Side::Initiator })
            }
            Payload::Done => Outcome::Opened,
            Payload::Data(tag) => Outcome::Delivered(tag),
            Payload::Disc(_) => unreachable!("no Disc reaches up"),
        }
    }

    fn grant(&mut self, at: u64, peer: u64, establishment: u64, side: Side) -> Outcome {
        let forward = (self.client, self.server);
        let backward = (self.server, self.client);
        let (out, inward) = match side {
            Side::Responder => (forward, backward),
            Side::Initiator => (backward, forward),
        };
        for (direction, filter) in [(Direction::Out, out), (Direction::In, inward)] {
            self.rows.push(Row { association: Association { node: at, direction, peer }, filter, establishment });
        }
        made(match side {
            Side::Responder => Item::Out { at, packet: Packet::bare(at, peer, Payload::Rep(establishment)) },
            Side::Initiator => Item::Ack { at, establishment },
        })
    }

    fn acknowledge(&mut self, at: u64) -> Outcome {
        self.use_up(Item::Dwait { at });
        made(if at == self.server {
            Item::Out { at, packet: Packet::bare(at, self.client, Payload::Done) }
        } else {
            self.discovery(at)
        })
    }

    fn newest_match(&self, at: u64, direction: Direction, packet: &Packet) -> Option<&Row> {
        self.rows.iter().rev().find(|row| {
            (row.association.node, row.association.direction) == (at, direction)
                && row.filter == (packet.source, packet.destination)
                && !packet.payload.names(row.establishment)
        })
    }

    /// Document 01 claims that the wait is always pending, so its absence is an error.
    fn use_up(&mut self, wait: Item) {
        let number = *self.items.iter().find(|(_, item)| **item == wait).expect("the wait is pending").0;
        self.items.remove(&number);
    }
}

fn made(item: Item) -> Outcome {
    Outcome::Made(vec![item])
}
