//! The simulator: sessions over one network, the requests and their refusals, and the answers as text.

use crate::calculus::{Association, Direction, Item, Outcome, Payload, Row, Session};
use crate::form::Form;
use crate::network::{Network, Node, DEFAULT};
use std::collections::{BTreeMap, BTreeSet};

/// From this last number a call that writes still has two numbers left.
const LAST_WITH_ROOM: u64 = 999_998;
const MOST_DATA: usize = 12;

/// Refusals 1 to 13 by the words of document 01's table, and those of a drop (#109). 14 and 15 belong to the join of two
/// files (#106) and are not here.
#[derive(Clone, Copy, Debug, PartialEq)]
pub enum Refusal {
    Unreadable = 1,
    Range,
    Double,
    Unknown,
    Late,
    Taken,
    Idle,
    Same,
    Gateway,
    Spent,
    NoItem,
    Waiting,
    Full,
    Busy = 16,
    NoTunnel,
}

type Answer = Result<Vec<String>, Refusal>;

#[derive(Default)]
pub struct Simulator {
    network: Network,
    /// the sessions in use
    sessions: BTreeMap<u64, Session>,
    /// the last number of each session that ever wrote an item; a close leaves it
    last: BTreeMap<u64, u64>,
    /// the accepted steps of each session since its last open, on items that are not Data; a close leaves them (#103)
    set_up_steps: BTreeMap<u64, u64>,
    opened_once: bool,
}

impl Simulator {
    pub fn new() -> Self {
        Self::default()
    }

    /// The lines that answer one line of input, given without its newline.
    pub fn call(&mut self, line: &[u8]) -> Vec<String> {
        self.answer(line).unwrap_or_else(|refusal| vec![format!("(no {})", refusal as u8)])
    }

    pub fn network(&self) -> &Network {
        &self.network
    }

    pub fn in_use(&self, session: u64) -> bool {
        self.sessions.contains_key(&session)
    }

    /// The session's last number.
    pub fn last(&self, session: u64) -> u64 {
        self.last.get(&session).copied().unwrap_or(0)
    }

    /// Whether the session's numbers are spent.
    pub fn spent(&self, session: u64) -> bool {
        self.last(session) > LAST_WITH_ROOM
    }

    /// The session's accepted steps since its last open, on items that are not Data: at most the ceiling.
    pub fn set_up_steps(&self, session: u64) -> u64 {
        self.set_up_steps.get(&session).copied().unwrap_or(0)
    }

    /// How many establishments the session has begun.
    pub fn begun(&self, session: u64) -> u64 {
        self.sessions.get(&session).map_or(0, |session| session.begun)
    }

    /// The session's rows, oldest first.
    pub fn rows(&self, session: u64) -> &[Row] {
        self.sessions.get(&session).map_or(&[], |session| &session.rows)
    }

    /// The session's establishments that have rows.
    pub fn tunnels(&self, session: u64) -> Vec<u64> {
        let establishments: BTreeSet<u64> = self.rows(session).iter().map(|row| row.establishment).collect();
        establishments.into_iter().collect()
    }

    /// The session's pending item of this number.
    pub fn item(&self, session: u64, number: u64) -> Option<&Item> {
        self.sessions.get(&session)?.items.get(&number)
    }

    /// The numbers of the session's pending items that are neither a wait nor Data.
    pub fn active(&self, session: u64) -> Vec<u64> {
        let items = self.sessions.get(&session).map(|session| &session.items);
        items.into_iter().flatten().filter(|(_, item)| item.is_active()).map(|(&number, _)| number).collect()
    }

    /// Whether the session's Done pends.
    pub fn done_pends(&self, session: u64) -> bool {
        let items = self.sessions.get(&session).map(|session| &session.items);
        let mut packets = items.into_iter().flatten().filter_map(|(_, item)| item.packet());
        packets.any(|packet| packet.payload == Payload::Done)
    }

    /// The numbers of the session's pending items, waits and others apart: (others, waits).
    pub fn pending(&self, session: u64) -> (Vec<u64>, Vec<u64>) {
        let items = self.sessions.get(&session).map(|session| &session.items);
        let (waits, others): (Vec<_>, Vec<_>) = items.into_iter().flatten().partition(|(_, item)| item.waits());
        let numbers = |items: Vec<(&u64, &Item)>| items.into_iter().map(|(&number, _)| number).collect();
        (numbers(others), numbers(waits))
    }

    fn answer(&mut self, line: &[u8]) -> Answer {
        let form = Form::read(line).ok_or(Refusal::Unreadable)?;
        refuse(!form.in_range(), Refusal::Range)?;
        match form {
            Form::Node { node, gateway, has, needs } => self.node(node, gateway, has, needs),
            Form::Route { at, destination, next } => self.route(at, destination, next),
            Form::Open { session, client, server } => self.open(session, client, server),
            Form::Step { session, item } => self.step(session, item),
            Form::Send { session, side, tag } => self.send(session, side, tag),
            Form::Close { session } => self.close(session),
            Form::Drop { session, establishment } => self.drop_tunnel(session, establishment),
            Form::Show => Ok(self.show()),
            Form::Net => Ok(self.network.forms()),
        }
    }

    fn node(&mut self, node: u64, gateway: bool, has: Vec<u64>, needs: Vec<u64>) -> Answer {
        refuse(self.opened_once, Refusal::Late)?;
        refuse(self.network.knows(node), Refusal::Double)?;
        let set = |credentials: Vec<u64>| credentials.into_iter().collect::<BTreeSet<_>>();
        self.network.nodes.insert(node, Node { gateway, has: set(has), needs: set(needs) });
        one("(ok)")
    }

    fn route(&mut self, at: u64, destination: u64, next: u64) -> Answer {
        refuse(self.opened_once, Refusal::Late)?;
        let known = |node: u64| self.network.knows(node);
        refuse(!known(at) || !known(next) || destination != DEFAULT && !known(destination), Refusal::Unknown)?;
        refuse(at == destination || at == next, Refusal::Same)?;
        refuse(self.network.routes.contains_key(&(at, destination)), Refusal::Double)?;
        self.network.routes.insert((at, destination), next);
        one("(ok)")
    }

    fn open(&mut self, number: u64, client: u64, server: u64) -> Answer {
        refuse(self.in_use(number), Refusal::Taken)?;
        refuse(!self.network.knows(client) || !self.network.knows(server), Refusal::Unknown)?;
        refuse(client == server, Refusal::Same)?;
        refuse(self.network.is_gateway(client) || self.network.is_gateway(server), Refusal::Gateway)?;
        self.refuse_spent(number)?;
        self.opened_once = true;
        let session = Session::new(client, server);
        let first = session.discovery(client);
        self.sessions.insert(number, session);
        self.set_up_steps.insert(number, 0);
        self.write(number, vec![first], "")
    }

    fn step(&mut self, number: u64, item_number: u64) -> Answer {
        let session = self.sessions.get(&number).ok_or(Refusal::Idle)?;
        let item = *session.items.get(&item_number).ok_or(Refusal::NoItem)?;
        refuse(item.waits(), Refusal::Waiting)?;
        self.refuse_spent(number)?;
        let session = self.sessions.get_mut(&number).ok_or(Refusal::Idle)?;
        session.items.remove(&item_number);
        if !item.holds_data() {
            *self.set_up_steps.entry(number).or_default() += 1;
        }
        match session.apply(item, &self.network) {
            Outcome::Made(items) => self.write(number, items, ""),
            Outcome::MadeByDefault(item) => self.write(number, vec![item], " default"),
            Outcome::Lost(loss) => one(format!("(lost {loss})")),
            Outcome::Denied => one("(denied)"),
            Outcome::Opened => one("(opened)"),
            Outcome::Delivered(tag) => one(format!("(delivered {tag})")),
        }
    }

    fn send(&mut self, number: u64, side: u64, tag: u64) -> Answer {
        let session = self.sessions.get(&number).ok_or(Refusal::Idle)?;
        let data = session.items.values().filter(|item| item.holds_data()).count();
        refuse(data >= MOST_DATA, Refusal::Full)?;
        self.refuse_spent(number)?;
        self.write(number, vec![session.data(side, tag)], "")
    }

    fn close(&mut self, number: u64) -> Answer {
        self.sessions.remove(&number).ok_or(Refusal::Idle)?;
        one("(closed)")
    }

    /// It writes no item, so spent numbers do not matter.
    fn drop_tunnel(&mut self, number: u64, establishment: u64) -> Answer {
        let session = self.sessions.get_mut(&number).ok_or(Refusal::Idle)?;
        refuse(session.items.values().any(|item| item.names(establishment)), Refusal::Busy)?;
        refuse(!session.remove_rows(establishment), Refusal::NoTunnel)?;
        one("(closed)")
    }

    /// The users of an association are the rows that name it, so they are counted here and stored nowhere. The map keeps
    /// associations in their order, which is show's.
    fn show(&self) -> Vec<String> {
        let mut users: BTreeMap<Association, u64> = BTreeMap::new();
        for row in self.sessions.values().flat_map(|session| &session.rows) {
            *users.entry(row.association).or_default() += 1;
        }
        let line = |(association, users): (&Association, &u64)| {
            let direction = match association.direction {
                Direction::In => "in",
                Direction::Out => "out",
            };
            let Association { node, peer, .. } = association;
            format!("(assoc {node} {direction} {peer} {} {users})", association.spi())
        };
        users.iter().map(line).chain(["(end)".to_string()]).collect()
    }

    fn refuse_spent(&self, session: u64) -> Result<(), Refusal> {
        refuse(self.spent(session), Refusal::Spent)
    }

    /// Gives the items the session's next numbers, in order; the answer has them, then the note.
    fn write(&mut self, number: u64, items: Vec<Item>, note: &str) -> Answer {
        let session = self.sessions.get_mut(&number).ok_or(Refusal::Idle)?;
        let last = self.last.entry(number).or_default();
        let mut made = String::from("(made");
        for item in items {
            *last += 1;
            session.items.insert(*last, item);
            made += &format!(" {last}");
        }
        one(made + note + ")")
    }
}

fn refuse(condition: bool, refusal: Refusal) -> Result<(), Refusal> {
    if condition {
        Err(refusal)
    } else {
        Ok(())
    }
}

fn one(line: impl Into<String>) -> Answer {
    Ok(vec![line.into()])
}
