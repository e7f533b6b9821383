//! The ceiling of a set-up's steps (#103), on the program and on the second implementation: the longest set-ups, and random
//! ones in any order and mixed with anything. SEED and COUNT in the environment choose other random ones.

use simulator_tests::calculus::{Item, CEILING};
use simulator_tests::compare::{difference_from_list, made};
use simulator_tests::defaults;
use simulator_tests::form::{Form, NODES, SESSIONS};
use simulator_tests::lists::{set_ups, List};
use simulator_tests::network::Node;
use simulator_tests::program;
use simulator_tests::random::{check_met, for_each_index, setting, Random};
use simulator_tests::simulator::Simulator;
use simulator_tests::topology::{forms, longest_chain, longest_way, routes_along, with_uplinks, Route};
use std::collections::{BTreeMap, BTreeSet};

/// What the random set-ups have to meet: each end that a set-up has, with whose packet is lost or who denies; what comes between
/// the steps of a set-up under way; and what is left at the end. Req and Rep are bare and meet no other loss; a Done is lost only
/// where its rows were dropped (#109), and seldom but by 1 or 4.
const KINDS: &str = "Done (opened)|Done (lost 1)|Done (lost 4)|Initiator (denied)|Responder (denied)|Disc (lost 2)|Disc (lost 3)|Disc (lost 6)|\
    Req (lost 2)|Req (lost 3)|Rep (lost 2)|Rep (lost 3)|wait between|used between|not issued between|Data between|\
    another session between|counted anew|nothing left|waits left|Data left|waits and Data left";

/// The longest set-up that a Done ends, in a network of 32 nodes: no way has over 31 hops. Disc goes 31 hops and begins 8
/// establishments; Req and Done go 31 hops to each tunnel point; Rep goes 30 to a gateway, for the node after it has the 31,
/// and the last Rep goes Disc's 24 from the last gateway. A way has out, its hops, the wire's last step and up.
const LONGEST: u64 = (31 + 8) + 8 + 8 * way(31) + 7 * way(30) + way(24) + 8 * 5 + 8 * way(31);
/// The longest that is exhausted: in a circle of 31 nodes Disc goes 29 hops, then 1 and 30 in turn up to the ninth gateway, and
/// only the first Rep has fewer than 31.
const LONGEST_EXHAUSTED: u64 = (29 + 4 * (1 + 30) + 9) + 8 + 8 * way(31) + way(30) + 7 * way(31) + 8 * 5;

const fn way(hops: u64) -> u64 {
    1 + hops + 1 + 1
}

/// The count by the text alone: the numbers that a send makes, and that a step of such a number makes, are Data's.
#[derive(Default)]
struct Text {
    data: BTreeSet<(u64, u64)>,
    set_up_steps: BTreeMap<u64, u64>,
}

impl Text {
    fn read(&mut self, form: &Form, answer: &str) {
        if is_refusal(answer) {
            return;
        }
        match *form {
            Form::Open { session, .. } => drop(self.set_up_steps.insert(session, 0)),
            Form::Step { session, item } if !self.data.contains(&(session, item)) => {
                *self.set_up_steps.entry(session).or_default() += 1;
            }
            Form::Step { session, .. } | Form::Send { session, .. } => {
                self.data.extend(made(answer).into_iter().map(|number| (session, number)));
            }
            _ => {}
        }
    }

    fn set_up_steps(&self, session: u64) -> u64 {
        self.set_up_steps.get(&session).copied().unwrap_or(0)
    }
}

/// The step of an item, as it stood before the call.
struct Step {
    session: u64,
    number: u64,
    item: Option<Item>,
    spent: bool,
}

/// Calls so far with the second implementation's answers, and what was met.
#[derive(Default)]
struct Watch {
    simulator: Simulator,
    text: Text,
    list: List,
    longest: u64,
    met: BTreeSet<String>,
    /// the session whose set-up was stepped last
    latest: u64,
}

impl Watch {
    fn call(&mut self, call: impl AsRef<[u8]>) -> String {
        let call = call.as_ref();
        let form = Form::read(call);
        let step = self.step(form.as_ref());
        let lines = self.simulator.call(call);
        let answer = lines.join("\n");
        self.list.calls.push(call.to_vec());
        self.list.answers.push(lines);
        if let Some(form) = form {
            self.note_open(&form, &answer);
            self.text.read(&form, &answer);
        }
        if let Some(step) = step {
            self.check_step(&step, &answer);
            self.note_step(&step, &answer);
        }
        self.check_counts();
        answer
    }

    /// The step that the form is, of a session in use.
    fn step(&self, form: Option<&Form>) -> Option<Step> {
        match form {
            Some(&Form::Step { session, item: number }) if self.simulator.in_use(session) => {
                let item = self.simulator.item(session, number).copied();
                Some(Step { session, number, item, spent: self.simulator.spent(session) })
            }
            _ => None,
        }
    }

    /// Unless the numbers are spent, what is neither a wait nor Data can be stepped.
    fn check_step(&self, step: &Step, answer: &str) {
        let active = step.item.is_some_and(|item| item.is_active());
        let Step { session, number, .. } = step;
        assert!(!active || step.spent || !is_refusal(answer), "(step {session} {number}) answers {answer}");
    }

    fn check_counts(&mut self) {
        for session in SESSIONS {
            let steps = self.simulator.set_up_steps(session);
            assert_eq!(steps, self.text.set_up_steps(session), "session {session}, as counted and by the text");
            assert!(steps <= CEILING, "session {session} has {steps} steps");
            self.longest = self.longest.max(steps);
        }
    }

    fn under_way(&self, session: u64) -> bool {
        !self.simulator.active(session).is_empty()
    }

    fn meet(&mut self, kind: impl Into<String>) {
        self.met.insert(kind.into());
    }

    /// Notes an open before the text counts it.
    fn note_open(&mut self, form: &Form, answer: &str) {
        match *form {
            Form::Open { session, .. } if !is_refusal(answer) && self.text.set_up_steps(session) > 0 => {
                self.meet("counted anew");
            }
            _ => {}
        }
    }

    fn note_step(&mut self, step: &Step, answer: &str) {
        let between = match step.item {
            None if step.number > self.simulator.last(step.session) => "not issued",
            None => "used",
            Some(item) if item.waits() => "wait",
            Some(item) if item.holds_data() => "Data",
            Some(item) => return self.note_set_up_step(step.session, item, answer),
        };
        if self.under_way(step.session) {
            self.meet(format!("{between} between"));
        }
    }

    fn note_set_up_step(&mut self, session: u64, item: Item, answer: &str) {
        if self.latest != session && self.under_way(self.latest) {
            self.meet("another session between");
        }
        self.latest = session;
        if !answer.starts_with("(made ") {
            self.meet(format!("{} {answer}", kind(&item)));
        }
    }

    /// Steps every set-up in turn, as often as the ceiling allows.
    fn drive(&mut self) {
        for session in (0..CEILING).flat_map(|_| SESSIONS) {
            if let Some(item) = self.simulator.active(session).first() {
                self.call(format!("(step {session} {item})"));
            }
        }
    }

    /// Tries every number with every set-up at its end; the program has to answer all of the calls as written. The most steps
    /// of a session, and what was met.
    fn end(mut self, place: &str) -> (u64, BTreeSet<String>) {
        for session in SESSIONS {
            assert!(!self.under_way(session), "{place}: session {session} is under way");
            if self.simulator.in_use(session) {
                self.try_all(session);
            }
        }
        let output = program::run(&self.list.input());
        assert_eq!(difference_from_list(&self.list, &output), None, "{place}");
        (self.longest, self.met)
    }

    /// Of all the numbers that were issued, Data can be stepped, waits answer 12, and the others are used up.
    fn try_all(&mut self, session: u64) {
        let (data, waits) = self.simulator.pending(session);
        for number in 1..=self.simulator.last(session) {
            let call = format!("(step {session} {number})");
            let answer = self.call(&call);
            if data.contains(&number) {
                assert!(self.text.data.contains(&(session, number)), "{call} is of no Data");
                assert!(!is_refusal(&answer), "{call} answers {answer}");
            } else {
                assert_eq!(answer, if waits.contains(&number) { "(no 12)" } else { "(no 11)" }, "{call}");
            }
        }
        self.meet(match (waits.is_empty(), data.is_empty()) {
            (true, true) => "nothing left",
            (false, true) => "waits left",
            (true, false) => "Data left",
            (false, false) => "waits and Data left",
        });
    }
}

fn is_refusal(answer: &str) -> bool {
    answer.starts_with("(no ")
}

/// The payload or the side that the item holds, without numbers.
fn kind(item: &Item) -> &'static str {
    let text = format!("{item:?}");
    let kinds = ["Disc", "Req", "Rep", "Done", "Initiator", "Responder"];
    kinds.into_iter().find(|kind| text.contains(kind)).unwrap_or("neither")
}

/// Eight sessions over this network of 32 nodes, in turn, each to its end; asserts that they all have this many steps and what
/// their last one answers. So too where defaults lead the same ways.
fn check_longest(gateways: &[u64], ends: (u64, u64), routes: Vec<Route>, steps: u64, last: &str) {
    let mut random = Random::new(setting("SEED", 13), 0);
    let with_defaults = with_uplinks(&mut random, routes.clone());
    assert!(with_defaults.len() < routes.len(), "no default stands for two routes");
    for routes in [routes, with_defaults] {
        check_longest_by(gateways, ends, &routes, steps, last);
    }
}

fn check_longest_by(gateways: &[u64], ends: (u64, u64), routes: &[Route], steps: u64, last: &str) {
    let mut watch = Watch::default();
    for node in NODES {
        let gateway = gateways.contains(&node);
        watch.call(Node { gateway, has: BTreeSet::new(), needs: BTreeSet::new() }.form(node));
    }
    for route in forms(routes) {
        assert_eq!(watch.call(&route), "(ok)", "{route}");
    }
    for session in SESSIONS {
        watch.call(format!("(open {session} {} {})", ends.0, ends.1));
    }
    watch.drive();
    for session in SESSIONS {
        assert_eq!(watch.simulator.set_up_steps(session), steps, "session {session}");
    }
    let (_, met) = watch.end("eight sessions");
    assert!(met.contains(last), "{last} is not met");
}

#[test]
fn ceiling_is_the_documents() {
    assert_eq!(CEILING, 8 * 109 + 8 * 35);
    assert_eq!(CEILING, 1152);
}

#[test]
fn longest_set_up() {
    assert_eq!(LONGEST, 889);
    check_longest(&[2, 3, 4, 5, 6, 7, 8], (1, 9), longest_chain(), LONGEST, "Done (opened)");
}

/// Client 1, gateways 30 and 31, server 32; the routes for the server go from 1 to 31 and back to 1.
#[test]
fn longest_exhausted_set_up() {
    let circle: Vec<u64> = (1..=31).chain([1]).collect();
    let ways = [longest_way(&[30], 1), longest_way(&[31, 1], 30), longest_way(&[30], 31), routes_along(&circle, 32)];
    assert_eq!(LONGEST_EXHAUSTED, 753);
    check_longest(&[30, 31], (1, 32), ways.concat(), LONGEST_EXHAUSTED, "Disc (lost 6)");
}

#[test]
fn random_set_ups_keep_the_ceiling() {
    let (seed, count) = (setting("SEED", 5), setting("COUNT", 300));
    let enough = count >= 100;
    let (lengths, met): (Vec<u64>, Vec<_>) = for_each_index(count, |index| watch(seed, index)).into_iter().unzip();
    let longest = lengths.into_iter().max().unwrap_or(0);
    println!("the longest has {longest} steps");
    assert!(!enough || longest >= 400, "the longest has only {longest} steps");
    check_met(met.into_iter().flatten(), &[KINDS, defaults::STEPS].join("|"), enough);
}

fn watch(seed: u64, index: u64) -> (u64, BTreeSet<String>) {
    let mut watch = Watch::default();
    let calls = set_ups(seed, index).calls;
    watch.met.extend(defaults::met(&calls));
    for call in calls {
        watch.call(call);
    }
    watch.end(&format!("SEED={seed}, list {index}"))
}
