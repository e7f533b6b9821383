//! The searches of the model, as a table: how many states Maude meets when the steps may come in any order.

use crate::maude::{self, number_between};
use simulator_bench::runs::Outcome;
use std::fs;

const FILE: &str = "search.maude";
/// What all of them together may take; past it Maude is ended, and the searches from there on have no figures.
const SECONDS: u32 = 120;
const KILOBYTES: u32 = 6_000_000;

pub fn print() -> Outcome<()> {
    println!("Maude's search over every order of steps, host - gateway - host. Data is how much the client and the");
    println!("server of session 1 send, at any time. A search that is cut has met at least so many states.\n");
    println!("| sessions | data | states | rewrites | seconds | |");
    println!("|---:|---:|---:|---:|---:|---|");
    let text = fs::read_to_string(maude::file(FILE))?;
    let output = maude::output(FILE, SECONDS, KILOBYTES)?;
    // Maude repeats each command, and what it found comes after it
    let mut found = output.split("search ").skip(1);
    let mut without_figures = Vec::new();
    for command in text.lines().filter(|line| line.starts_with("search ")) {
        let search = Search::read(command).ok_or_else(|| format!("not read: {command}"))?;
        if !search.print_row(found.next().unwrap_or_default())? {
            without_figures.push(format!("sessions {}, data {}", search.sessions, search.data));
        }
    }
    if !without_figures.is_empty() {
        let without_figures = without_figures.join("; ");
        println!("\nWithout figures, as not ended within {SECONDS} seconds and {KILOBYTES} kB: {without_figures}.");
    }
    Ok(())
}

/// What a search starts from.
struct Search<'a> {
    sessions: &'a str,
    data: String,
    /// the bound of its depth, if it has one
    depth: Option<&'a str>,
}

impl<'a> Search<'a> {
    /// Of its command, such as `search [1, 25] start(1, 1, 1) =>! ..` with a bound of 25 steps.
    fn read(command: &'a str) -> Option<Self> {
        let (start, _) = command.split_once("start(")?.1.split_once(')')?;
        let (sessions, data) = start.split_once(", ")?;
        let depth = command.split_once("[1, ").and_then(|(_, rest)| rest.split_once(']')).map(|(depth, _)| depth);
        Some(Search { sessions, data: data.replace(", ", " and "), depth })
    }

    /// Prints what the search found; whether it has come to its figures.
    fn print_row(&self, found: &str) -> Outcome<bool> {
        let Some(figures) = found.lines().find(|line| line.starts_with("states: ")) else {
            return Ok(false);
        };
        if !found.contains("No solution.") {
            return Err(format!("a session does not come to stage open: {found}").into());
        }
        let states = number_between(figures, "states: ", "  rewrites");
        let rewrites = number_between(figures, "rewrites: ", " in ");
        let seconds = maude::milliseconds(figures) / 1000.0;
        let extent = self.depth.map_or("complete".to_string(), |depth| format!("cut at {depth} steps"));
        println!("| {} | {} | {states} | {rewrites} | {seconds:.2} | {extent} |", self.sessions, self.data);
        Ok(true)
    }
}
