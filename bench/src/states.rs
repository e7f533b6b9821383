//! Inputs that bring about a state of a given size and then repeat one cycle of calls, so that the cost of a call can
//! be held against that size. The cycle is Data sent and stepped as far as it goes: the same kinds of calls with the
//! same kinds of answers for every size. Each maker panics where the state or the cycle is not what its comment says.

use crate::inputs::MOST_DATA;
use crate::networks::{self, host_at};
use crate::recorder::Recorder;

/// The session whose calls are measured.
const MEASURED: u64 = 1;
const CLIENT: u64 = 0;
const SERVER: u64 = 1;
/// The most items that a set-up holds.
const MOST_SET_UP: u64 = 3;

/// A list of calls: the state's, and then the cycle's again and again.
pub struct Cycles {
    pub calls: Vec<Vec<u8>>,
    /// how many calls bring about the state
    prefix: usize,
    /// how many calls the cycle has
    length: usize,
}

impl Cycles {
    /// Repeats a trip of Data from this side, of so many calls and with this end, until there are about `calls` calls.
    fn new(mut recorder: Recorder, side: u64, length: usize, end: &str, calls: usize) -> Self {
        let prefix = recorder.calls.len();
        for cycle in 1..=(calls / length).max(10) {
            assert_eq!(recorder.trip(MEASURED, side, 7), end);
            assert_eq!(recorder.calls.len(), prefix + cycle * length);
        }
        Cycles { calls: recorder.calls, prefix, length }
    }

    /// The same list with a tenth of the cycles.
    pub fn short(&self) -> &[Vec<u8>] {
        let cycles = (self.calls.len() - self.prefix) / self.length;
        &self.calls[..self.prefix + cycles / 10 * self.length]
    }
}

/// So many sessions are open: the measured one, whose Data crosses two gateways and is delivered, and others that cross
/// seven gateways, each with 32 rows and 12 Data pending.
pub fn open_sessions(sessions: u64, calls: usize) -> Cycles {
    let mut recorder = Recorder::on(networks::eight_gateways());
    recorder.set_up(MEASURED, (host_at(1), host_at(2)));
    for session in MEASURED + 1..=sessions {
        recorder.set_up(session, (host_at(1), host_at(7)));
        send_and_leave(&mut recorder, session, MOST_DATA);
    }
    Cycles::new(recorder, CLIENT, 13, "(delivered 7)", calls)
}

/// The session has so many rows, four for each establishment that its set-up along eight gateways has done; the next
/// discovery pends. Data from the server matches no row, goes bare and is lost at the last gateway.
pub fn rows(rows: u64, calls: usize) -> Cycles {
    let mut recorder = Recorder::on(networks::chain(8));
    recorder.open(MEASURED, (1, 10));
    while shown_rows(&mut recorder) != rows || !recorder.simulator.pending(MEASURED).1.is_empty() {
        recorder.step_lowest(MEASURED).expect("the set-up comes to so many rows");
    }
    assert_eq!(pending(&recorder), 1);
    Cycles::new(recorder, SERVER, 4, "(lost 1)", calls)
}

/// The rows of the only session. Along a chain each names an association of its own.
fn shown_rows(recorder: &mut Recorder) -> u64 {
    recorder.simulator.call(b"(show)").len() as u64 - 1
}

/// The session has so many items pending, the cycle's own among them: up to three of the set-up, and Data. Data from
/// the server goes bare, as there is no row yet, and is lost at the gateway.
pub fn items(items: u64, calls: usize) -> Cycles {
    let others = items - 1;
    let set_up = others.min(MOST_SET_UP);
    let (client, server, stranded) = (1, 3, 4);
    let mut recorder = Recorder::on(with_stranded_host(networks::chain(1)));
    if set_up == 0 {
        // the discovery of a client that has no route to the server is lost
        recorder.open(MEASURED, (stranded, server));
        assert_eq!(recorder.step_lowest(MEASURED).as_deref(), Some("(lost 3)"));
    } else {
        recorder.open(MEASURED, (client, server));
    }
    while pending(&recorder) < set_up {
        recorder.step_lowest(MEASURED).expect("the set-up comes to so many items");
    }
    send_and_leave(&mut recorder, MEASURED, others - set_up);
    assert_eq!((pending(&recorder), shown_rows(&mut recorder)), (others, 0));
    Cycles::new(recorder, SERVER, 4, "(lost 1)", calls)
}

/// The chain of hosts 1 and 3 and gateway 2, with host 4 at the gateway: it is reached, but has no route of its own.
fn with_stranded_host(mut network: Vec<String>) -> Vec<String> {
    network.extend(["(node 4 host (has) (needs))", "(route 2 4 4)", "(route 3 4 2)"].map(String::from));
    network
}

fn send_and_leave(recorder: &mut Recorder, session: u64, count: u64) {
    for tag in 0..count {
        let answer = recorder.send(session, SERVER, tag);
        assert!(answer.starts_with("(made "), "{answer}");
    }
}

fn pending(recorder: &Recorder) -> u64 {
    let (others, waits) = recorder.simulator.pending(MEASURED);
    (others.len() + waits.len()) as u64
}
