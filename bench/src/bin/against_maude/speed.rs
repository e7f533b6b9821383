//! Calls a second, the proved program's and the model's, in turn, as a table.
//!
//! Maude's time is its own figure for the reduction alone: the terms are parsed before, and no answer is printed. The
//! program's time is that of its whole process, which starts, reads the calls as text and writes the answers as text.
//! So the comparison favours Maude. How the list is given does not hold Maude up: a term that has no list, and looks
//! for the lowest item to step it, is no faster.

use crate::maude::Maude;
use crate::{terms, Calls, CALLS, MAUDE_CALLS};
use simulator_bench::inputs;
use simulator_bench::runs::{Outcome, Pair, Spread};

/// How long one of Maude's runs is to take, about.
const SECONDS: f64 = 5.0;
/// What the program is to reach, as a multiple of the model's calls a second.
const GOAL: f64 = 25.0;

pub fn print() -> Outcome<()> {
    let pair = Pair::proved_and_second()?;
    println!("Speed against Maude: {}", pair.described());
    println!("First in each round Maude reduces a term, without text in or out. Calls a second and their ratio,");
    println!("proved to Maude, are medians (lowest to highest). The goal is a ratio of {GOAL}.\n");
    println!("| input | calls | Maude, calls/s | proved, calls/s | ratio | goal |");
    println!("|---|---:|---:|---:|---:|---|");
    for calls in &CALLS {
        print_row(calls, &pair)?;
    }
    Ok(())
}

/// The program gets more calls than Maude, so that its start weighs little.
fn print_row(calls: &Calls, pair: &Pair) -> Outcome<()> {
    let mut model = Model::new(&(calls.make)(MAUDE_CALLS));
    let input = pair.folder.put("input", &(calls.make)(inputs::calls()))?;
    let mut rounds = Vec::new();
    for round in 0..pair.rounds {
        let of_model = model.calls_a_second();
        let [seconds, _] = pair.round(&input, round)?;
        rounds.push((of_model, input.calls as f64 / seconds));
    }
    let of_model = Spread::of(rounds.iter().map(|round| round.0));
    let of_program = Spread::of(rounds.iter().map(|round| round.1));
    let ratio = Spread::of(rounds.iter().map(|(of_model, of_program)| of_program / of_model));
    let verdict = if ratio.median >= GOAL { "reached" } else { "missed" };
    print!("| {} | {} | {} | {} ", calls.name, input.calls, of_model.shown(0), of_program.shown(0));
    println!("| {} | {verdict} |", ratio.shown(1));
    Ok(())
}

/// Maude with a list of calls, ready to run it.
struct Model {
    maude: Maude,
    calls: usize,
    times: usize,
}

impl Model {
    fn new(calls: &[Vec<u8>]) -> Self {
        let requests: Vec<String> = calls.iter().map(|call| terms::request(call)).collect();
        let mut maude = Maude::start("requests.maude");
        maude.enter(&terms::module("Calls", &requests));
        let mut model = Model { maude, calls: calls.len(), times: 10 };
        // The first runs only tell how many make a long one.
        let rate = model.calls_a_second();
        model.times = (SECONDS * rate / model.calls as f64).ceil() as usize;
        model
    }

    fn calls_a_second(&mut self) -> f64 {
        let reduction = self.maude.reduce(&format!("repeated({}, fresh, input0)", self.times));
        assert!(reduction.result.starts_with("state("), "Maude stopped at {}", reduction.result);
        (self.times * self.calls) as f64 / reduction.seconds
    }
}
