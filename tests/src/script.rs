//! Runs the scripts `./simulate` and `./join`, also on a terminal.

use crate::program::{Running, Whole};
use std::io::{Read, Write};
use std::path::{Path, PathBuf};
use std::process::{ChildStdin, Command, Stdio};
use std::sync::{Arc, Mutex};
use std::thread::{self, JoinHandle};
use std::time::{Duration, Instant};

/// The longest that a script, which may prove a small repository beside other tests that do, or the wait for what it shows may take.
const LIMIT: Duration = Duration::from_secs(900);

/// A file or folder of this repository.
pub fn here(path: &str) -> PathBuf {
    let root = PathBuf::from(env!("CARGO_MANIFEST_DIR")).join("..");
    root.canonicalize().expect("the repository is there").join(path)
}

/// A run that has ended: its status, unless a signal ended it, and what it wrote.
#[derive(Debug)]
pub struct Ended {
    pub status: Option<i32>,
    pub answers: String,
    pub messages: String,
}

/// A run under way, which has its whole input.
pub struct UnderWay {
    running: Running,
    answers: Whole,
    messages: Whole,
}

impl UnderWay {
    pub fn end(mut self) -> Ended {
        let text = |whole: Whole| String::from_utf8(whole.receive_within(LIMIT)).expect("the output is text");
        let (answers, messages) = (text(self.answers), text(self.messages));
        Ended { status: self.running.wait_within(LIMIT).code(), answers, messages }
    }
}

pub fn start(mut command: Command, input: &str) -> UnderWay {
    command.stderr(Stdio::piped());
    let mut running = Running::start(command);
    // A script that ends before its input does is noticed by what it wrote.
    drop(running.take_input().write_all(input.as_bytes()));
    let (answers, messages) = (Whole::of(running.take_output()), Whole::of(running.take_messages()));
    UnderWay { running, answers, messages }
}

pub fn run(command: Command, input: &str) -> Ended {
    start(command, input).end()
}

/// A terminal, by the command `script`: its keyboard, and all that it has shown.
pub struct Terminal {
    running: Running,
    keyboard: ChildStdin,
    shown: Arc<Mutex<Vec<u8>>>,
    reader: JoinHandle<()>,
}

impl Terminal {
    /// Runs a line of shell in a folder.
    pub fn start(line: &str, folder: &Path) -> Self {
        // Ctrl-C is to count also where these tests run with its signal ignored.
        let mut command = Command::new("env");
        command.args(["--default-signal=INT", "script", "--quiet", "--return", "--command", line, "/dev/null"]);
        command.env("SHELL", "/bin/sh").current_dir(folder);
        let mut running = Running::start(command);
        let (keyboard, mut screen) = (running.take_input(), running.take_output());
        let shown = Arc::new(Mutex::new(Vec::new()));
        let showing = shown.clone();
        let reader = thread::spawn(move || {
            let mut piece = [0; 4096];
            while let Ok(length @ 1..) = screen.read(&mut piece) {
                showing.lock().expect("no thread has failed").extend(&piece[..length]);
            }
        });
        Terminal { running, keyboard, shown, reader }
    }

    pub fn press(&mut self, keys: &str) {
        self.keyboard.write_all(keys.as_bytes()).expect("the keys are pressed");
    }

    /// Waits until the terminal has shown the text.
    pub fn await_text(&self, text: &str) {
        let deadline = Instant::now() + LIMIT;
        while !so_far(&self.shown).contains(text) {
            assert!(Instant::now() < deadline, "{text} is not shown, but {}", so_far(&self.shown));
            thread::sleep(Duration::from_millis(10));
        }
    }

    /// The status, as a shell tells it, and all that was shown, once the run has ended.
    pub fn end(self) -> (Option<i32>, String) {
        let Terminal { mut running, keyboard: _until_it_ends, shown, reader } = self;
        let status = running.wait_within(LIMIT).code();
        reader.join().expect("the screen is read");
        (status, so_far(&shown))
    }
}

fn so_far(shown: &Mutex<Vec<u8>>) -> String {
    String::from_utf8_lossy(&shown.lock().expect("no thread has failed")).into_owned()
}
