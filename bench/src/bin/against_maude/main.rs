//! The proved program against the same rules in Maude, in the folder `maude`: whether the model is right, how many
//! calls a second each answers, and how many states Maude's search meets. `bench/run` says what RUNS and CALLS are.

mod answers;
mod maude;
mod searches;
mod speed;
mod terms;

use simulator_bench::inputs;
use simulator_bench::runs::{ended, Outcome};
use std::process::ExitCode;

/// The calls that Maude runs, again and again; their answers are compared first.
const MAUDE_CALLS: usize = 20_000;

/// Calls of one kind.
struct Calls {
    name: &'static str,
    make: fn(usize) -> Vec<Vec<u8>>,
}

const CALLS: [Calls; 2] = [
    Calls { name: "one session on two hosts", make: inputs::two_hosts },
    Calls { name: "eight sessions over eight gateways", make: inputs::eight_sessions },
];

fn main() -> ExitCode {
    match maude::version() {
        Some(version) => ended(compare(&version)),
        None => {
            println!("Maude is not installed, so nothing is compared with it.");
            ExitCode::SUCCESS
        }
    }
}

fn compare(version: &str) -> Outcome<()> {
    println!("Maude {version}, with document 01's rules as equations.\n");
    answers::check_listings()?;
    answers::check_random_lists()?;
    for calls in &CALLS {
        answers::check(calls.name, &(calls.make)(MAUDE_CALLS))?;
    }
    println!();
    speed::print()?;
    println!();
    searches::print()
}
