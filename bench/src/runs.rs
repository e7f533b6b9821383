//! Runs the proved program and the second implementation in turn on the same input, compares their outputs and takes
//! the time of each whole process.

use simulator_tests::random::setting;
use simulator_tests::{lists, program};
use std::error::Error;
use std::fs::{self, File};
use std::path::{Path, PathBuf};
use std::process::{Command, ExitCode};
use std::time::Instant;

pub type Outcome<T> = Result<T, Box<dyn Error>>;

const ROUNDS: u64 = 9;

/// A program that reads standard input and writes standard output.
pub struct Program {
    pub name: &'static str,
    pub path: PathBuf,
}

impl Program {
    /// The built program, or the one that SIMULATE names.
    pub fn proved() -> Self {
        Program { name: "proved", path: program::command().get_program().into() }
    }

    /// The second implementation, as `bench/run` builds it.
    pub fn second() -> Self {
        let path = Path::new(env!("CARGO_MANIFEST_DIR")).join("../target/tests/release/second");
        Program { name: "second", path }
    }

    /// The program's name and its file's.
    pub fn described(&self) -> String {
        format!("{} ({})", self.name, self.path.file_name().unwrap_or_default().display())
    }

    /// The seconds that one run takes, from its start to its end.
    fn run(&self, input: &Path, output: &Path) -> Outcome<f64> {
        let mut command = Command::new(&self.path);
        command.stdin(File::open(input)?).stdout(File::create(output)?);
        let start = Instant::now();
        let status = command.status().map_err(|error| format!("{}: {error}", self.path.display()))?;
        let seconds = start.elapsed().as_secs_f64();
        if status.success() {
            Ok(seconds)
        } else {
            Err(format!("{} ended with {status}", self.name).into())
        }
    }
}

/// A folder for inputs and outputs, removed when it is dropped.
pub struct Folder(PathBuf);

impl Folder {
    pub fn new() -> Outcome<Self> {
        let path = std::env::temp_dir().join(format!("simulator-bench-{}", std::process::id()));
        fs::create_dir(&path)?;
        Ok(Folder(path))
    }

    /// Writes the calls as lines to a file of this name.
    pub fn put(&self, name: &str, calls: &[Vec<u8>]) -> Outcome<Input> {
        let input = lists::input(calls);
        let path = self.0.join(name);
        fs::write(&path, &input)?;
        Ok(Input { path, calls: calls.len(), bytes: input.len() })
    }

    fn output(&self, program: &Program) -> PathBuf {
        self.0.join(program.name)
    }
}

impl Drop for Folder {
    fn drop(&mut self) {
        // What cannot be removed is left: the folder is a temporary one.
        drop(fs::remove_dir_all(&self.0));
    }
}

/// An input in a file.
pub struct Input {
    pub path: PathBuf,
    pub calls: usize,
    pub bytes: usize,
}

/// Two programs that answer alike.
pub struct Pair {
    pub programs: [Program; 2],
    pub folder: Folder,
    /// how often each runs on each input: as often as RUNS says
    pub rounds: u64,
}

impl Pair {
    pub fn proved_and_second() -> Outcome<Self> {
        let programs = [Program::proved(), Program::second()];
        Ok(Pair { programs, folder: Folder::new()?, rounds: setting("RUNS", ROUNDS).max(1) })
    }

    /// What is run and how often, for the head of a table.
    pub fn described(&self) -> String {
        let ([one, other], rounds) = (self.programs.each_ref().map(Program::described), self.rounds);
        format!(
            "{one} and {other}, each a whole process from file to file.\n\
             {rounds} runs of each on each input, in turn, with equal outputs."
        )
    }

    /// The seconds that each program takes on the input, round by round.
    pub fn alternate(&self, input: &Input) -> Outcome<Vec<[f64; 2]>> {
        (0..self.rounds).map(|round| self.round(input, round)).collect()
    }

    /// One run of each program, with equal outputs. They take turns in starting a round.
    pub fn round(&self, input: &Input, round: u64) -> Outcome<[f64; 2]> {
        let order = if round % 2 == 1 { [1, 0] } else { [0, 1] };
        let mut seconds = [0.0; 2];
        for place in order {
            let program = &self.programs[place];
            seconds[place] = program.run(&input.path, &self.folder.output(program))?;
        }
        self.compare()?;
        Ok(seconds)
    }

    fn compare(&self) -> Outcome<()> {
        let [one, other] = &self.programs;
        let outputs = [fs::read(self.folder.output(one))?, fs::read(self.folder.output(other))?];
        if outputs[0] == outputs[1] {
            return Ok(());
        }
        let [ones, others] = outputs.each_ref().map(|output| output.split(|&byte| byte == b'\n'));
        let equal = ones.zip(others).take_while(|(one, other)| one == other).count();
        Err(format!("the outputs of {} and {} differ at line {}", one.name, other.name, equal + 1).into())
    }
}

/// The median of some figures, the lowest and the highest.
#[derive(Clone, Copy)]
pub struct Spread {
    pub median: f64,
    pub lowest: f64,
    pub highest: f64,
}

impl Spread {
    /// Of at least one figure.
    pub fn of(figures: impl Iterator<Item = f64>) -> Self {
        let mut figures: Vec<f64> = figures.collect();
        figures.sort_by(f64::total_cmp);
        let (count, last) = (figures.len(), figures.len() - 1);
        let median = (figures[last / 2] + figures[count / 2]) / 2.0;
        Spread { median, lowest: figures[0], highest: figures[last] }
    }

    /// As the tables have it, with so many digits after the point: `1.52 (1.43 to 1.60)`.
    pub fn shown(&self, digits: usize) -> String {
        let Spread { median, lowest, highest } = self;
        format!("{median:.digits$} ({lowest:.digits$} to {highest:.digits$})")
    }
}

/// A program's end: status 1 and the reason where the benchmark failed.
pub fn ended(outcome: Outcome<()>) -> ExitCode {
    match outcome {
        Ok(()) => ExitCode::SUCCESS,
        Err(error) => {
            eprintln!("the benchmark failed: {error}");
            ExitCode::FAILURE
        }
    }
}
