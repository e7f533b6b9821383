//! Reads one line of the form language: first its shape (refusal 1), then the range of its numbers (refusal 2).

use crate::calculus::MOST_ESTABLISHMENTS;
use crate::network::DEFAULT;
use std::ops::RangeInclusive;

/// The most bytes that a line may have before its newline.
pub const LONGEST: usize = 400;

pub const NODES: RangeInclusive<u64> = 1..=32;
/// A route's destinations: the nodes, and that of a default.
const DESTINATIONS: RangeInclusive<u64> = DEFAULT..=32;
pub const SESSIONS: RangeInclusive<u64> = 1..=8;
const ITEMS: RangeInclusive<u64> = 1..=1_000_000;
const ESTABLISHMENTS: RangeInclusive<u64> = 1..=MOST_ESTABLISHMENTS;
const SIDES: RangeInclusive<u64> = 0..=1;
const TAGS: RangeInclusive<u64> = 0..=4_294_967_295;
const LAST_CREDENTIAL: u64 = 63;

/// A line that has the shape of a form; its numbers may be out of range.
#[derive(Clone, Debug, PartialEq)]
pub enum Form {
    Node { node: u64, gateway: bool, has: Vec<u64>, needs: Vec<u64> },
    Route { at: u64, destination: u64, next: u64 },
    Open { session: u64, client: u64, server: u64 },
    Step { session: u64, item: u64 },
    Send { session: u64, side: u64, tag: u64 },
    Close { session: u64 },
    Drop { session: u64, establishment: u64 },
    Show,
    Net,
}

impl Form {
    /// The form that the line is, or none if it is no form of the language.
    pub fn read(line: &[u8]) -> Option<Form> {
        if line.len() > LONGEST {
            return None;
        }
        let text = std::str::from_utf8(line).ok()?;
        let inner = text.strip_prefix('(')?.strip_suffix(')')?;
        let parts: Vec<&str> = inner.split(' ').collect();
        Some(match parts[..] {
            ["node", ..] => node(inner)?,
            ["route", at, destination, next] => {
                Form::Route { at: number(at)?, destination: number(destination)?, next: number(next)? }
            }
            ["open", session, client, server] => {
                Form::Open { session: number(session)?, client: number(client)?, server: number(server)? }
            }
            ["step", session, item] => Form::Step { session: number(session)?, item: number(item)? },
            ["send", session, side, tag] => {
                Form::Send { session: number(session)?, side: number(side)?, tag: number(tag)? }
            }
            ["close", session] => Form::Close { session: number(session)? },
            ["drop", session, establishment] => {
                Form::Drop { session: number(session)?, establishment: number(establishment)? }
            }
            ["show"] => Form::Show,
            ["net"] => Form::Net,
            _ => return None,
        })
    }

    /// Whether every number is in its range and credentials rise strictly.
    pub fn in_range(&self) -> bool {
        match self {
            Form::Node { node, has, needs, .. } => NODES.contains(node) && rising(has) && rising(needs),
            Form::Route { at, destination, next } => {
                NODES.contains(at) && DESTINATIONS.contains(destination) && NODES.contains(next)
            }
            Form::Open { session, client, server } => {
                SESSIONS.contains(session) && NODES.contains(client) && NODES.contains(server)
            }
            Form::Step { session, item } => SESSIONS.contains(session) && ITEMS.contains(item),
            Form::Send { session, side, tag } => {
                SESSIONS.contains(session) && SIDES.contains(side) && TAGS.contains(tag)
            }
            Form::Close { session } => SESSIONS.contains(session),
            Form::Drop { session, establishment } => {
                SESSIONS.contains(session) && ESTABLISHMENTS.contains(establishment)
            }
            Form::Show | Form::Net => true,
        }
    }

    /// The session that the form names, if its number is in range; the form's other numbers do not matter.
    pub fn session(&self) -> Option<u64> {
        match self {
            Form::Open { session, .. }
            | Form::Step { session, .. }
            | Form::Send { session, .. }
            | Form::Close { session }
            | Form::Drop { session, .. } => Some(*session).filter(|session| SESSIONS.contains(session)),
            Form::Node { .. } | Form::Route { .. } | Form::Show | Form::Net => None,
        }
    }
}

/// `node 1 host (has 0 5) (needs)`, the outer brackets taken off.
fn node(inner: &str) -> Option<Form> {
    let (head, sets) = inner.strip_suffix(')')?.split_once(" (has")?;
    let (has, needs) = sets.split_once(") (needs")?;
    let (node, gateway) = match head.split(' ').collect::<Vec<_>>()[..] {
        ["node", node, "host"] => (node, false),
        ["node", node, "gate"] => (node, true),
        _ => return None,
    };
    Some(Form::Node { node: number(node)?, gateway, has: credentials(has)?, needs: credentials(needs)? })
}

/// Nothing, or a space before each number.
fn credentials(text: &str) -> Option<Vec<u64>> {
    if text.is_empty() {
        return Some(Vec::new());
    }
    text.strip_prefix(' ')?.split(' ').map(number).collect()
}

fn number(text: &str) -> Option<u64> {
    let digits = (1..=10).contains(&text.len()) && text.bytes().all(|byte| byte.is_ascii_digit());
    let leading_zero = text.len() > 1 && text.starts_with('0');
    if digits && !leading_zero {
        text.parse().ok()
    } else {
        None
    }
}

fn rising(credentials: &[u64]) -> bool {
    credentials.windows(2).all(|pair| pair[0] < pair[1]) && credentials.iter().all(|&number| number <= LAST_CREDENTIAL)
}
