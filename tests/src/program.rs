//! Runs the built programs. Nothing here waits for ever: past the limit the test fails and the program is killed.

use crate::random::Random;
use std::ffi::OsStr;
use std::io::{BufRead, BufReader, Read, Write};
use std::path::PathBuf;
use std::process::{Child, ChildStderr, ChildStdin, ChildStdout, Command, ExitStatus, Stdio};
use std::sync::mpsc::{channel, Receiver, Sender};
use std::thread;
use std::time::{Duration, Instant};

/// The longest that a run, or the wait for one answer, may take.
pub const LIMIT: Duration = Duration::from_secs(120);

/// The simulator under test: the built one, or the one that SIMULATE names.
pub fn command() -> Command {
    command_of("simulate")
}

/// The program under test by this name: the built one, or the one that the variable of its name, in capitals, names.
pub fn command_of(program: &str) -> Command {
    let variable = program.to_uppercase();
    let built = PathBuf::from(env!("CARGO_MANIFEST_DIR")).join("../target/bin").join(program);
    let path = std::env::var_os(&variable).map_or(built, PathBuf::from);
    assert!(path.is_file(), "no program at {}: build it first, or name another by {variable}", path.display());
    Command::new(path)
}

/// The program's output for a whole input; it must end with status 0.
pub fn run(input: &[u8]) -> Vec<u8> {
    let mut program = Running::start(command());
    let mut stdin = program.take_input();
    let input = input.to_vec();
    // A program that ends before its input does is noticed by its output.
    thread::spawn(move || drop(stdin.write_all(&input)));
    program.finish()
}

/// What `join` writes for the files of these names; it must end with status 0.
pub fn join<Name: AsRef<OsStr>>(names: &[Name]) -> Vec<u8> {
    let mut command = command_of("join");
    command.args(names);
    Running::start(command).finish()
}

/// Writes the whole in pieces of any size up to 60 bytes, each long enough after the one before for that to be read alone.
pub fn write_in_pieces(mut input: impl Write, whole: &[u8], random: &mut Random) {
    let mut rest = whole;
    while !rest.is_empty() {
        let (piece, after) = rest.split_at(rest.len().min(1 + random.index(60)));
        input.write_all(piece).expect("the piece is written");
        thread::sleep(Duration::from_millis(1));
        rest = after;
    }
}

/// A process that is killed when it is dropped.
pub struct Running {
    child: Child,
}

impl Running {
    pub fn start(mut command: Command) -> Self {
        let child = command.stdin(Stdio::piped()).stdout(Stdio::piped()).spawn();
        Running { child: child.expect("the program starts") }
    }

    pub fn take_input(&mut self) -> ChildStdin {
        self.child.stdin.take().expect("the input is taken once")
    }

    pub fn take_output(&mut self) -> ChildStdout {
        self.child.stdout.take().expect("the output is taken once")
    }

    /// What it says on standard error, where the command has a pipe for that.
    pub fn take_messages(&mut self) -> ChildStderr {
        self.child.stderr.take().expect("the messages are taken once")
    }

    /// The whole output; the program must end with status 0.
    pub fn finish(mut self) -> Vec<u8> {
        let output = Whole::of(self.take_output()).receive();
        let status = self.wait();
        assert!(status.success(), "the program ended with {status}");
        output
    }

    /// The output's lines, as they come.
    pub fn lines(&mut self) -> Lines {
        let stdout = BufReader::new(self.take_output());
        Lines(in_thread(move |sender| {
            // Where nobody receives any more, the output is closed.
            for line in stdout.lines() {
                if sender.send(line.expect("the output is text")).is_err() {
                    return;
                }
            }
        }))
    }

    pub fn wait(&mut self) -> ExitStatus {
        self.wait_within(LIMIT)
    }

    pub fn wait_within(&mut self, limit: Duration) -> ExitStatus {
        let deadline = Instant::now() + limit;
        loop {
            if let Some(status) = self.child.try_wait().expect("the program is waited for") {
                return status;
            }
            assert!(Instant::now() < deadline, "the program does not end");
            thread::sleep(Duration::from_micros(200));
        }
    }

    /// The number after `name` in a file of the running process, such as VmHWM in `status`.
    pub fn field(&self, file: &str, name: &str) -> u64 {
        let path = format!("/proc/{}/{file}", self.child.id());
        let text = std::fs::read_to_string(&path).expect("the kernel's figures are read");
        let line = text.lines().find(|line| line.starts_with(name)).expect("the field is there");
        line.split_whitespace().nth(1).and_then(|number| number.parse().ok()).expect("the field is a number")
    }
}

impl Drop for Running {
    fn drop(&mut self) {
        // Both fail only where the process has already ended.
        drop(self.child.kill());
        drop(self.child.wait());
    }
}

/// All that comes from a pipe, read while the process goes on.
pub struct Whole(Receiver<Vec<u8>>);

impl Whole {
    pub fn of(mut pipe: impl Read + Send + 'static) -> Self {
        Whole(in_thread(move |sender| {
            let mut bytes = Vec::new();
            pipe.read_to_end(&mut bytes).expect("the output is read");
            drop(sender.send(bytes));
        }))
    }

    /// The whole, once it has ended; an end past the limit fails the test.
    pub fn receive(&self) -> Vec<u8> {
        self.receive_within(LIMIT)
    }

    pub fn receive_within(&self, limit: Duration) -> Vec<u8> {
        self.0.recv_timeout(limit).expect("the program ends its output in time")
    }
}

pub struct Lines(Receiver<String>);

impl Lines {
    /// The next line; its absence within the limit fails the test.
    pub fn receive(&self) -> String {
        self.0.recv_timeout(LIMIT).expect("an answer comes in time")
    }
}

fn in_thread<T: Send + 'static>(work: impl FnOnce(Sender<T>) + Send + 'static) -> Receiver<T> {
    let (sender, receiver) = channel();
    thread::spawn(move || work(sender));
    receiver
}
