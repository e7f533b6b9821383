//! The speed of the proved program and of the second implementation, input by input, as a table. `bench/run` says what
//! RUNS and CALLS are.

use simulator_bench::inputs;
use simulator_bench::runs::{ended, Outcome, Pair, Spread};
use std::process::ExitCode;

struct Row {
    name: &'static str,
    make: fn(usize) -> Vec<Vec<u8>>,
    /// CALLS is divided by this: long lines take long
    share: usize,
}

const ROWS: [Row; 6] = [
    Row { name: "one session on two hosts", make: inputs::two_hosts, share: 1 },
    Row { name: "eight sessions over eight gateways", make: inputs::eight_sessions, share: 1 },
    Row { name: "Data up to the limit", make: inputs::data_flood, share: 1 },
    Row { name: "every other line damaged", make: |calls| inputs::half_damaged(calls, 1), share: 2 },
    Row { name: "refused lines", make: inputs::refusals, share: 1 },
    Row { name: "node forms with long lists", make: inputs::node_forms, share: 4 },
];

fn main() -> ExitCode {
    ended(measure())
}

fn measure() -> Outcome<()> {
    let calls = inputs::calls();
    let pair = Pair::proved_and_second()?;
    println!("Speed: {}", pair.described());
    println!("Calls a second are the median's; the ratio is proved to second, the median (lowest to highest).\n");
    println!("| input | calls | bytes | proved, calls/s | second, calls/s | ratio |");
    println!("|---|---:|---:|---:|---:|---:|");
    for row in &ROWS {
        let input = pair.folder.put("input", &(row.make)(calls / row.share))?;
        let rounds = pair.alternate(&input)?;
        let speed = |program: usize| input.calls as f64 / Spread::of(rounds.iter().map(|round| round[program])).median;
        let ratio = Spread::of(rounds.iter().map(|[proved, second]| second / proved));
        print!("| {} | {} | {} ", row.name, input.calls, input.bytes);
        print!("| {:.0} | {:.0} ", speed(0), speed(1));
        println!("| {} |", ratio.shown(2));
    }
    Ok(())
}
