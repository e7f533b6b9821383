//! Whether the model is the simulator: the listings of document 01, and the second implementation's answers.

use crate::maude::{self, Maude};
use crate::terms;
use simulator_bench::runs::Outcome;
use simulator_tests::form::Form;
use simulator_tests::lists::{list, LateNetwork};
use simulator_tests::network::DEFAULT;
use simulator_tests::simulator::Simulator;

const LISTINGS: usize = 9;
const SECONDS: u32 = 60;
const KILOBYTES: u32 = 2_000_000;

const SEED: u64 = 1;
const RANDOM_LISTS: u64 = 60;
const RANDOM_LENGTH: usize = 400;

/// Runs the listings A to I by the model. If one does not hold, the error is all that Maude says of them.
pub fn check_listings() -> Outcome<()> {
    let output = maude::output("listings.maude", SECONDS, KILOBYTES)?;
    let held = output.lines().filter(|line| *line == "result Verdict: holds").count();
    println!("- Listings of document 01 that hold in the model: {held} of {LISTINGS}.");
    if held == LISTINGS {
        Ok(())
    } else {
        Err(output.into())
    }
}

/// Compares the model's answers to these calls with the second implementation's.
pub fn check(name: &str, calls: &[Vec<u8>]) -> Outcome<()> {
    compare(calls)?;
    println!("- Of {name}, the model answers {} calls as the second implementation does.", calls.len());
    Ok(())
}

/// The same on the random lists of the tests, with every loss and refusal but that of a line that is no form. The model
/// is document 01's, so it has no `(net)` and no default route.
pub fn check_random_lists() -> Outcome<()> {
    let mut count = 0;
    for index in 0..RANDOM_LISTS {
        let mut calls = list(SEED, index, RANDOM_LENGTH, LateNetwork::Yes).calls;
        calls.retain(|call| {
            Form::read(call).is_some_and(|form| !matches!(form, Form::Net | Form::Route { destination: DEFAULT, .. }))
        });
        compare(&calls)?;
        count += calls.len();
    }
    println!("- Of {RANDOM_LISTS} random lists, the model answers {count} calls as the second implementation does.");
    Ok(())
}

/// The first call that the model answers otherwise is the error.
fn compare(calls: &[Vec<u8>]) -> Outcome<()> {
    let mut simulator = Simulator::new();
    let exchange = |call: &Vec<u8>| format!("{} ~> {}", terms::request(call), terms::answer(&simulator.call(call)));
    let exchanges: Vec<String> = calls.iter().map(exchange).collect();
    let mut maude = Maude::start("requests.maude");
    maude.enter(&terms::module("Exchanges", &exchanges));
    match maude.reduce("check(fresh, input0)").result.as_str() {
        "holds" => Ok(()),
        difference => Err(format!("a request, the answer expected and the model's: {difference}").into()),
    }
}
