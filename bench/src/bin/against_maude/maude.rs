//! Runs Maude, on a file of the model or on commands given one by one.

use simulator_bench::runs::Outcome;
use simulator_tests::program::{Lines, Running};
use std::io::Write;
use std::path::PathBuf;
use std::process::{ChildStdin, Command, Stdio};

/// The version of the Maude that is installed, if there is one.
pub fn version() -> Option<String> {
    let output = Command::new("maude").arg("--version").output().ok()?;
    Some(String::from_utf8_lossy(&output.stdout).trim().to_string())
}

/// A file of the model.
pub fn file(name: &str) -> PathBuf {
    PathBuf::from(env!("CARGO_MANIFEST_DIR")).join("maude").join(name)
}

/// What Maude writes for a file of the model until it has taken so many seconds or kilobytes, past which it is ended.
pub fn output(name: &str, seconds: u32, kilobytes: u32) -> Outcome<String> {
    let limited = format!("ulimit -v {kilobytes} && exec timeout {seconds} maude -no-banner -no-wrap \"$0\"");
    let output = Command::new("sh").args(["-c", &limited]).arg(file(name)).stderr(Stdio::inherit()).output()?;
    Ok(String::from_utf8(output.stdout)?)
}

/// Maude with a file of the model loaded, waiting for commands.
pub struct Maude {
    input: ChildStdin,
    lines: Lines,
    _running: Running,
}

/// What a term was reduced to, and how long Maude says that took.
pub struct Reduction {
    pub result: String,
    pub seconds: f64,
}

impl Maude {
    pub fn start(name: &str) -> Self {
        let mut command = Command::new("maude");
        command.args(["-no-banner", "-no-wrap"]).arg(file(name));
        let mut running = Running::start(command);
        Maude { input: running.take_input(), lines: running.lines(), _running: running }
    }

    /// Gives Maude a module.
    pub fn enter(&mut self, module: &str) {
        self.input.write_all(module.as_bytes()).expect("Maude takes its input");
    }

    pub fn reduce(&mut self, term: &str) -> Reduction {
        self.enter(&format!("reduce {term} .\n"));
        let seconds = milliseconds(&self.line("rewrites: ")) / 1000.0;
        let typed = self.line("result ");
        let result = typed.split_once(": ").expect("a sort stands before the result").1.to_string();
        Reduction { result, seconds }
    }

    /// The next line that begins so.
    fn line(&mut self, start: &str) -> String {
        loop {
            let line = self.lines.receive();
            if line.starts_with(start) {
                return line;
            }
        }
    }
}

/// The real time in Maude's figures, `rewrites: 998 in 4ms cpu (3ms real) (249500 rewrites/second)`.
pub fn milliseconds(figures: &str) -> f64 {
    number_between(figures, "(", "ms real")
}

/// The number between two texts, the first of its kind in the line.
pub fn number_between(line: &str, before: &str, after: &str) -> f64 {
    let number = line.split_once(before).and_then(|(_, rest)| rest.split_once(after)).map(|(number, _)| number);
    number.and_then(|number| number.parse().ok()).unwrap_or_else(|| panic!("no number in Maude's line {line:?}"))
}
