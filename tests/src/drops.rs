//! What a list of calls meets of drops (#109), by the second implementation: the tests of random lists have to meet all of it.

use crate::arrivals::{stands, stepped};
use crate::calculus::{Association, Direction, Item, Packet, Payload, Row, Side};
use crate::compare::made;
use crate::form::{Form, SESSIONS};
use crate::packets::payload;
use crate::simulator::Simulator;
use std::collections::{BTreeMap, BTreeSet};

/// Drops that are accepted: where the set-up is, which of the session's tunnels goes, and what its rows leave.
pub const ACCEPTED: &str = "dropped before Done|dropped beside Done|dropped behind the set-up|dropped the only one|\
    dropped the oldest|dropped a middle one|dropped the newest|dropped a half|dropped what another session uses";

/// Drops that are refused: by each item that names the establishment, and by the ewait alone where no other is left. There is no
/// establishment that was begun and has neither such an item nor rows, unless it was dropped.
pub const REFUSED: &str = "(no 1)|(no 2) of the session|(no 2) of the establishment|(no 7)|(no 16) by est|\
    (no 16) by Req at out|(no 16) by Req on the wire|(no 16) by Req at up|(no 16) by auth of the responder|\
    (no 16) by grant of the responder|(no 16) by Rep at out|(no 16) by Rep on the wire|(no 16) by Rep at up|\
    (no 16) by ewait|(no 16) by ewait alone|(no 16) by ewait alone, with rows|(no 16) by auth of the initiator|\
    (no 16) by grant of the initiator|(no 16) by ack|(no 17) above begun|(no 17) dropped before";

/// What Done and Data meet where their session has dropped a tunnel since its open. Nothing else makes a Done bare, or loses one.
pub const PACKETS: &str = "Done out at a dropped tunnel|Data out at a dropped tunnel|Done in a dropped tunnel|\
    Done in a dropped tunnel that another session uses|Data in a dropped tunnel|\
    Data in a dropped tunnel that another session uses|Done in another tunnel, out|Done in another tunnel, (opened)|\
    Data in another tunnel, out|Data in another tunnel, (delivered)|\
    Done bare, (lost 1)|Done bare, (lost 2)|Done bare, (lost 3)|Done bare, (lost 5)|Done bare, (opened)";

/// What is seldom met but where gateways are in a circle, and a node has rows of several establishments.
pub const IN_A_CIRCLE: &str = "dropped a row above one of another peer|Data in another tunnel, (lost 5)";

/// What the calls meet, on a fresh second implementation.
pub fn met<Line: AsRef<[u8]>>(calls: &[Line]) -> BTreeSet<String> {
    let mut watch = Watch::default();
    for call in calls {
        watch.call(call.as_ref());
    }
    watch.met
}

#[derive(Default)]
struct Watch {
    simulator: Simulator,
    /// the rows that each session in use has dropped since its open
    dropped: BTreeMap<u64, Vec<Row>>,
    met: BTreeSet<String>,
}

impl Watch {
    fn call(&mut self, call: &[u8]) {
        match Form::read(call) {
            Some(Form::Drop { session, establishment }) => self.drop_tunnel(call, session, establishment),
            Some(Form::Step { session, .. }) => self.step(call, session),
            Some(Form::Close { session }) => {
                self.simulator.call(call);
                self.dropped.remove(&session);
            }
            None if call.starts_with(b"(drop ") => {
                let answer = self.simulator.call(call).concat();
                self.meet(answer);
            }
            _ => drop(self.simulator.call(call)),
        }
    }

    fn meet(&mut self, kind: impl Into<String>) {
        self.met.insert(kind.into());
    }

    fn drop_tunnel(&mut self, call: &[u8], session: u64, establishment: u64) {
        let rows = self.simulator.rows(session).to_vec();
        let answer = self.simulator.call(call).concat();
        let detail = match &answer[..] {
            "(closed)" => return self.note_accepted(session, establishment, rows),
            "(no 16)" => return self.note_busy(session, establishment),
            "(no 17)" if establishment > self.simulator.begun(session) => " above begun",
            "(no 17)" => " dropped before",
            "(no 2)" if !SESSIONS.contains(&session) => " of the session",
            "(no 2)" => " of the establishment",
            _ => "",
        };
        self.meet(answer + detail);
    }

    /// Notes a drop behind it, from the rows before it. It leaves the items as they are.
    fn note_accepted(&mut self, session: u64, establishment: u64, rows: Vec<Row>) {
        let (gone, left): (Vec<Row>, Vec<Row>) = rows.into_iter().partition(|row| row.establishment == establishment);
        let older = left.iter().any(|row| row.establishment < establishment);
        let newer = left.iter().any(|row| row.establishment > establishment);
        let which = match (older, newer) {
            (false, false) => "the only one",
            (false, true) => "the oldest",
            (true, true) => "a middle one",
            (true, false) => "the newest",
        };
        let others = SESSIONS.filter(|&other| other != session).flat_map(|other| self.simulator.rows(other));
        let others: Vec<Association> = others.map(|row| row.association).collect();
        let more = [
            (gone.len() == 2, "a half"),
            (gone.iter().any(|row| others.contains(&row.association)), "what another session uses"),
            (gone.iter().any(|row| uncovers(row, &left)), "a row above one of another peer"),
        ];
        let more = more.into_iter().filter(|(so, _)| *so).map(|(_, kind)| kind);
        self.met.extend([self.place(session), which].into_iter().chain(more).map(|kind| format!("dropped {kind}")));
        self.dropped.entry(session).or_default().extend(gone);
    }

    /// Where the session's set-up is.
    fn place(&self, session: u64) -> &'static str {
        if self.simulator.done_pends(session) {
            "beside Done"
        } else if self.simulator.active(session).is_empty() {
            "behind the set-up"
        } else {
            "before Done"
        }
    }

    fn note_busy(&mut self, session: u64, establishment: u64) {
        let (others, waits) = self.simulator.pending(session);
        let items = others.iter().chain(&waits).filter_map(|&number| self.simulator.item(session, number));
        let kinds: Vec<String> = items.filter(|item| item.names(establishment)).map(name).collect();
        let rows = self.simulator.tunnels(session).contains(&establishment);
        if kinds == ["ewait"] {
            self.meet(if rows { "(no 16) by ewait alone, with rows" } else { "(no 16) by ewait alone" });
        }
        self.met.extend(kinds.into_iter().map(|kind| format!("(no 16) by {kind}")));
    }

    fn step(&mut self, call: &[u8], session: u64) {
        let stepped = stepped(&self.simulator, call);
        let answer = self.simulator.call(call).concat();
        let kind = stepped.and_then(|(_, _, item)| self.packet_kind(session, item, &answer));
        self.met.extend(kind);
    }

    /// What the stepped item's Done or Data meets of what the session has dropped.
    fn packet_kind(&mut self, session: u64, item: Item, answer: &str) -> Option<String> {
        let packet = item.packet().filter(|packet| matches!(packet.payload, Payload::Done | Payload::Data(_)))?;
        let dropped = self.dropped.get(&session)?;
        let what = payload(packet);
        match item {
            Item::Out { at, .. } => {
                let sent = self.simulator.item(session, *made(answer).first()?)?.packet()?;
                let without_row = sent.header.is_none() && dropped.iter().any(|row| sends_out(row, at, packet));
                without_row.then(|| format!("{what} out at a dropped tunnel"))
            }
            Item::Up { at, .. } if packet.header.is_some() => {
                let gone = dropped.iter().any(|row| receives(row, at, packet));
                self.arrival_kind(at, packet, gone, answer).map(|kind| format!("{what} in {kind}"))
            }
            _ if packet.payload == Payload::Done && made(answer).is_empty() => Some(format!("Done bare, {answer}")),
            _ => None,
        }
    }

    /// What is met by a packet whose header is tested, where a tunnel that led to this node may be gone.
    fn arrival_kind(&mut self, at: u64, packet: &Packet, gone: bool, answer: &str) -> Option<String> {
        let end = match answer {
            "(lost 4)" if !gone => return None,
            "(lost 4)" if stands(&mut self.simulator, at, packet) => "a dropped tunnel that another session uses",
            "(lost 4)" => "a dropped tunnel",
            _ if answer.starts_with("(made ") => "another tunnel, out",
            _ if answer.starts_with("(delivered ") => "another tunnel, (delivered)",
            _ => return Some(format!("another tunnel, {answer}")),
        };
        Some(end.to_string())
    }
}

/// The item's kind, with the packet's or the side that it has.
fn name(item: &Item) -> String {
    let side = |side: Side| if side == Side::Initiator { "initiator" } else { "responder" };
    match *item {
        Item::Wire { packet, .. } => format!("{} on the wire", payload(&packet)),
        Item::Out { packet, .. } => format!("{} at out", payload(&packet)),
        Item::Up { packet, .. } => format!("{} at up", payload(&packet)),
        Item::Est { .. } => "est".to_string(),
        Item::Auth { side: of, .. } => format!("auth of the {}", side(of)),
        Item::Grant { side: of, .. } => format!("grant of the {}", side(of)),
        Item::Ack { .. } => "ack".to_string(),
        Item::Dwait { .. } => "dwait".to_string(),
        Item::Ewait { .. } => "ewait".to_string(),
    }
}

/// Whether the row is one by which the node would send the packet out.
fn sends_out(row: &Row, at: u64, packet: &Packet) -> bool {
    let Association { node, direction, .. } = row.association;
    (node, direction) == (at, Direction::Out) && row.filter == (packet.source, packet.destination)
}

/// Whether the row is one of those that admit the packet's header at the node.
fn receives(row: &Row, at: u64, packet: &Packet) -> bool {
    let from = |peer| Association { node: at, direction: Direction::In, peer };
    packet.header.is_some_and(|header| row.association == from(header.from))
}

/// Whether an older row of another peer is the newest of its kind that is left, now that this one is gone.
fn uncovers(gone: &Row, left: &[Row]) -> bool {
    let kind = |row: &Row| (row.association.node, row.association.direction, row.filter);
    left.iter()
        .rev()
        .find(|row| kind(row) == kind(gone))
        .is_some_and(|row| row.establishment < gone.establishment && row.association.peer != gone.association.peer)
}
