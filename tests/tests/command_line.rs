//! The options and the files of `./simulate` and `./join`, and where they may be called from.

use simulator_tests::script::{here, run, Ended, Terminal};
use simulator_tests::small::{made_in, repository, Folder};
use std::fs;
use std::os::unix::fs::symlink;
use std::path::{Path, PathBuf};
use std::process::Command;
use std::sync::{Mutex, PoisonError};

const CTRL_D: &str = "\x04";

/// A script at the root of the repository.
struct Script {
    name: &'static str,
    usage: &'static str,
    /// a line of its help
    example: &'static str,
    /// words that are as its usage says
    right: &'static [&'static str],
    wrong: &'static [&'static [&'static str]],
}

const SIMULATE: Script = Script {
    name: "simulate",
    usage: "usage: ./simulate [FILE]",
    example: "./simulate examples/tour.txt",
    right: &[],
    wrong: &[&["--unknown"], &["-x", "a.txt"], &["a.txt", "a.txt"], &["--", "a.txt", "a.txt"]],
};

const JOIN: Script = Script {
    name: "join",
    usage: "usage: ./join FILE FILE",
    example: "./join examples/office.net examples/house.net",
    right: &["a.txt", "a.txt"],
    wrong: &[
        &["--unknown"],
        &["-x", "a.txt", "a.txt"],
        &[],
        &["--"],
        &["a.txt"],
        &["--", "a.txt"],
        &["a.txt", "a.txt", "a.txt"],
        &["--", "a.txt", "a.txt", "a.txt"],
    ],
};

const SCRIPTS: [Script; 2] = [SIMULATE, JOIN];

impl Script {
    fn command(&self) -> Command {
        Command::new(format!("./{}", self.name))
    }

    /// The command with these words, in the folder of a repository where nothing is built: its run must build nothing.
    fn run_unbuilt(&self, folder: &Folder, mut command: Command, words: &[&str]) -> Ended {
        command.args(words).current_dir(folder.path(""));
        let ended = run(command, "(show)\n");
        assert_eq!(made_in(folder), Vec::<PathBuf>::new(), "{}: something is built: {ended:?}", self.name);
        ended
    }

    /// Such a run is refused with the status, in one line that has the text.
    fn check_refused(&self, folder: &Folder, command: Command, words: &[&str], status: i32, text: &str) {
        let ended = self.run_unbuilt(folder, command, words);
        assert_eq!((ended.status, &ended.answers[..]), (Some(status), ""), "{words:?}: {ended:?}");
        let lines: Vec<_> = ended.messages.lines().collect();
        let says = |line: &str| line.starts_with(&format!("{}: ", self.name)) && line.contains(text);
        assert!(matches!(lines[..], [line] if says(line)), "{words:?}: {ended:?}");
    }
}

/// The folders of PATH, without those that have rt.
fn path_without_rt() -> String {
    let path = std::env::var("PATH").expect("there is a PATH");
    let folders: Vec<_> = path.split(':').filter(|folder| !Path::new(folder).join("rt").exists()).collect();
    folders.join(":")
}

#[test]
fn help_needs_no_build() {
    let folder = repository();
    for script in SCRIPTS {
        for word in ["--help", "-h"] {
            let mut command = script.command();
            command.env("PATH", path_without_rt());
            let ended = script.run_unbuilt(&folder, command, &[word]);
            assert_eq!((ended.status, &ended.messages[..]), (Some(0), ""), "{ended:?}");
            assert!(ended.answers.starts_with(&format!("{}\n", script.usage)), "{ended:?}");
            assert!(ended.answers.contains(&format!("\n    {}\n", script.example)), "{ended:?}");
        }
    }
}

#[test]
fn wrong_options_are_refused() {
    let folder = repository();
    folder.write("a.txt", "(show)\n");
    for script in SCRIPTS {
        for words in script.wrong {
            script.check_refused(&folder, script.command(), words, 2, script.usage);
        }
    }
}

#[test]
fn files_that_cannot_be_read_are_refused() {
    let folder = repository();
    folder.write("calls/a.txt", "(show)\n");
    let cases = [
        (&["no such file.txt"][..], "there is no file 'no such file.txt'"),
        (&[""], "there is no file ''"),
        (&["--", "--help"], "there is no file '--help'"),
        (&["calls"], "'calls' is a folder"),
    ];
    for (words, text) in cases {
        SIMULATE.check_refused(&folder, SIMULATE.command(), words, 1, text);
    }
}

#[test]
fn a_file_without_permission_is_refused() {
    let folder = repository();
    folder.write("a.txt", "(show)\n");
    let command = folder.close("a.txt", "./simulate");
    SIMULATE.check_refused(&folder, command, &["a.txt"], 1, "'a.txt' cannot be read");
}

#[test]
fn says_that_rt_is_missing() {
    let folder = repository();
    for script in SCRIPTS {
        let mut command = script.command();
        command.env("PATH", path_without_rt());
        let text = "rt, which proves and builds the program, is not on the PATH";
        script.check_refused(&folder, command, script.right, 1, text);
    }
}

fn example(name: &str) -> String {
    fs::read_to_string(here("examples").join(name)).expect("the example is read")
}

/// A folder with examples by other names, and with links to the scripts.
fn elsewhere() -> Folder {
    let folder = Folder::temporary();
    for (name, text) in [("listing", "listing-a.txt"), ("office", "office.net"), ("house", "house.net")] {
        folder.write(&format!("the {name}"), example(text));
        folder.write(&format!("-{name}"), example(text));
    }
    for Script { name, .. } in SCRIPTS {
        assert!(here("target/bin").join(name).is_file(), "build the program {name} first");
        symlink(here(name), folder.path(&format!("{name} link"))).expect("a link is made");
        symlink(format!("{name} link"), folder.path(&format!("{name} link to link"))).expect("a link is made");
    }
    folder
}

/// The right to run this repository's scripts: a test that waits long for another's run would show that.
fn alone() -> impl Drop {
    static RUNS: Mutex<()> = Mutex::new(());
    RUNS.lock().unwrap_or_else(PoisonError::into_inner)
}

/// Asserts what a script writes in a folder, with nothing on standard error.
fn check_answers(folder: &Folder, script: &Path, words: &[&str], input: &str, expected: (i32, &str)) {
    let mut command = Command::new(script);
    command.args(words).current_dir(folder.path(""));
    let ended = run(command, input);
    let found = (ended.status, &ended.answers[..], &ended.messages[..]);
    assert_eq!(found, (Some(expected.0), expected.1, ""), "{} {words:?}", script.display());
}

/// This repository's programs, which must be built: from another folder, by a link, with files of any name, and no message.
#[test]
fn answers_from_anywhere() {
    let _alone = alone();
    let folder = elsewhere();
    let (listing, answers, both) =
        (example("listing-a.txt"), example("listing-a.out"), example("office-and-house.net"));
    let (simulate, join) = (here("simulate"), here("join"));
    let cases = [
        (&simulate, &["the listing"][..], "", &answers),
        (&simulate, &["--", "-listing"], "", &answers),
        (&"./simulate link to link".into(), &["./-listing"], "", &answers),
        (&"./simulate link".into(), &[], &listing, &answers),
        (&join, &["--", "-office", "-house"], "", &both),
        (&"./join link to link".into(), &["./-house", "the office"], "", &both),
        (&"./join link".into(), &["the house", "/dev/stdin"], &example("office.net"), &both),
    ];
    for (script, words, input, expected) in cases {
        check_answers(&folder, script, words, input, (0, expected));
    }
}

/// The answer alone says why, and the status that it is a refusal; the join of two empty files is none.
#[test]
fn refused_joins() {
    let _alone = alone();
    let folder = elsewhere();
    folder.write("empty", "");
    folder.write("other house", example("house.net").replace("(route 24 0 20)", "(route 24 0 21)"));
    let cases = [
        (&["the house", "other house"][..], (1, "(no 14)\n")),
        (&["the house", "the listing"], (1, "(no 15)\n")),
        (&["", "the house"], (1, "(no 15)\n")),
        (&["--", "--help", "the house"], (1, "(no 15)\n")),
        (&["empty", "empty"], (0, "")),
    ];
    for (words, expected) in cases {
        check_answers(&folder, &here("join"), words, "", expected);
    }
}

/// It says so on standard error where calls are typed; a file, or input from one, needs no such line.
#[test]
fn says_that_it_reads_the_keyboard() {
    let _alone = alone();
    assert!(here("target/bin/simulate").is_file(), "build the program first");
    let folder = Folder::temporary();
    let messages = folder.path("messages");
    let mut terminal = Terminal::start(&format!("exec ./simulate 2>'{}'", messages.display()), &here(""));
    terminal.press("(show)\n");
    terminal.await_text("(end)");
    terminal.press(CTRL_D);
    assert_eq!(terminal.end(), (Some(0), "(show)\r\n(end)\r\n".to_string()));
    let line = "simulate: reads calls from the keyboard, one on each line; Ctrl-D ends\n";
    assert_eq!(fs::read_to_string(messages).expect("the messages are read"), line);

    let answers = example("listing-a.out");
    for line in ["exec ./simulate examples/listing-a.txt", "exec ./simulate <examples/listing-a.txt"] {
        let ended = Terminal::start(line, &here("")).end();
        assert_eq!(ended, (Some(0), answers.replace('\n', "\r\n")), "{line}");
    }
}
