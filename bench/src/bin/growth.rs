//! The cost of a call against what the simulator holds, of the proved program and of the second implementation: a table
//! for each size that grows, and a plot of it in the folder that is given. `bench/run` says what RUNS and CALLS are.

use simulator_bench::plot::{Plot, Series};
use simulator_bench::runs::{ended, Outcome, Pair, Spread};
use simulator_bench::states::{self, Cycles};
use simulator_tests::random::setting;
use std::path::Path;
use std::process::ExitCode;

const CALLS: u64 = 400_000;
/// The cycles of more calls would use up the session's numbers.
const MOST_CALLS: u64 = 1_000_000;

/// A size that grows.
struct Size {
    name: &'static str,
    file: &'static str,
    make: fn(u64, usize) -> Cycles,
    first: u64,
    last: u64,
    step: usize,
}

const SIZES: [Size; 3] = [
    Size {
        name: "open sessions",
        file: "growth-sessions.svg",
        make: states::open_sessions,
        first: 1,
        last: 8,
        step: 1,
    },
    Size { name: "rows of the session", file: "growth-rows.svg", make: states::rows, first: 0, last: 32, step: 4 },
    Size {
        name: "pending items of the session",
        file: "growth-items.svg",
        make: states::items,
        first: 1,
        last: 15,
        step: 1,
    },
];

fn main() -> ExitCode {
    match std::env::args().collect::<Vec<_>>().as_slice() {
        [_, folder] => ended(measure(Path::new(folder))),
        _ => ended(Err("usage: growth FOLDER".into())),
    }
}

fn measure(folder: &Path) -> Outcome<()> {
    let calls = setting("CALLS", CALLS).min(MOST_CALLS) as usize;
    let pair = Pair::proved_and_second()?;
    println!("Cost of a call: {}", pair.described());
    println!("An input repeats one cycle to {calls} calls; the cost is its time less that of a tenth of the cycles,");
    println!("by the calls between: median (lowest to highest).");
    for size in &SIZES {
        let plot = Plot {
            title: format!("Cost of a call by {}", size.name),
            across: size.name,
            up: "ns a call",
            tick_across: size.step as f64,
            series: grow(&pair, size, calls)?,
        };
        std::fs::write(folder.join(size.file), plot.svg())?;
    }
    Ok(())
}

/// Prints the table of this size, and gives the medians of both programs.
fn grow(pair: &Pair, size: &Size, calls: usize) -> Outcome<[Series; 2]> {
    println!("\n| {} | proved, ns | second, ns |\n|---:|---:|---:|", size.name);
    let mut series = pair.programs.each_ref().map(|program| Series { name: program.name, points: Vec::new() });
    for value in (size.first..=size.last).step_by(size.step) {
        let costs = costs(pair, &(size.make)(value, calls))?;
        println!("| {value} | {} | {} |", costs[0].shown(0), costs[1].shown(0));
        for (series, cost) in series.iter_mut().zip(costs) {
            series.points.push((value as f64, cost.median));
        }
    }
    Ok(series)
}

/// Each program's nanoseconds for one of the cycle's calls.
fn costs(pair: &Pair, cycles: &Cycles) -> Outcome<[Spread; 2]> {
    let short = pair.folder.put("short", cycles.short())?;
    let long = pair.folder.put("long", &cycles.calls)?;
    let difference = (long.calls - short.calls) as f64;
    let mut figures = [Vec::new(), Vec::new()];
    for round in 0..pair.rounds {
        let (start, whole) = (pair.round(&short, round)?, pair.round(&long, round)?);
        for program in 0..2 {
            figures[program].push((whole[program] - start[program]) * 1e9 / difference);
        }
    }
    Ok(figures.map(|figures| Spread::of(figures.into_iter())))
}
