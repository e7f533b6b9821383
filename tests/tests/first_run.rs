//! What `./simulate` and `./join` do and show while they prove and build, on a small repository.

use simulator_tests::program::Running;
use simulator_tests::script::{run, start, Terminal};
use simulator_tests::small::{processes_in, repository, Folder};
use std::fs;
use std::os::unix::fs::PermissionsExt;
use std::path::PathBuf;
use std::process::Command;

/// A script of the small repository; its program answers with its input.
struct Script {
    name: &'static str,
    words: &'static [&'static str],
    /// what is shown of a whole build, each time with the seconds so far
    progress: &'static [&'static str],
}

const SIMULATE: Script = Script {
    name: "simulate",
    words: &[],
    progress: &[
        "simulate: proving one (0 of 4 crates proved, 4 left)",
        "simulate: proving two, three (1 of 4 crates proved, 3 left)",
        "simulate: proving simulate (3 of 4 crates proved, 1 left)",
        "simulate: 4 crates proved, target/bin/simulate built",
    ],
};

const JOIN: Script = Script {
    name: "join",
    words: &["first", "second"],
    progress: &[
        "join: proving one (0 of 2 crates proved, 2 left)",
        "join: proving join (1 of 2 crates proved, 1 left)",
        "join: 2 crates proved, target/bin/join built",
    ],
};

const CTRL_C: &str = "\x03";

impl Script {
    /// The script, with two crates proved at a time.
    fn command(&self, folder: &Folder) -> Command {
        let mut command = Command::new(folder.path(self.name));
        command.args(self.words).env("RT_JOBS", "2");
        command
    }
}

/// A PATH on which rt takes all the input that it gets before it does its work.
fn path_to_reading_rt(folder: &Folder) -> String {
    folder.write("bin/rt", "#!/bin/sh\ncat >/dev/null\nPATH=${PATH#*:}\nexec rt \"$@\"\n");
    fs::set_permissions(folder.path("bin/rt"), fs::Permissions::from_mode(0o755)).expect("rt can be run");
    format!("{}:{}", folder.path("bin").display(), std::env::var("PATH").expect("there is a PATH"))
}

/// A line of progress without its seconds, which are no less than those of the line before.
fn without_seconds<'a>(line: &'a str, seconds: &mut u64) -> &'a str {
    let (what, time) = line.rsplit_once(", ").unwrap_or_else(|| panic!("no seconds in {line}"));
    let now = time.strip_suffix(" s").and_then(|number| number.parse().ok());
    assert!(now >= Some(*seconds), "{line} after {seconds} s");
    *seconds = now.unwrap_or_default();
    what
}

/// Two runs are started at once: one proves and builds while the other waits, and each answers its own input. A later run says
/// nothing, and its input is its own too.
fn shows_each_crate_in_order(script: &Script) {
    let folder = repository();
    let runs = ["first calls\n", "second calls\n"].map(|input| (input, start(script.command(&folder), input)));
    let ended = runs.map(|(input, run)| (input, run.end()));
    for (input, ended) in &ended {
        assert_eq!((ended.status, &ended.answers[..]), (Some(0), *input), "{}", ended.messages);
    }
    let mut proving = ended.iter().filter(|(_, ended)| ended.messages.contains("proving"));
    let (_, ended) = proving.next().expect("one of them shows what it proves");
    assert!(proving.next().is_none(), "both prove");
    let mut lines = ended.messages.lines();
    assert!(lines.next().is_some_and(|line| line.contains("first run")), "{}", ended.messages);
    let mut seconds = 0;
    let lines: Vec<_> = lines.map(|line| without_seconds(line, &mut seconds)).collect();
    // a loaded machine may show one of two crates alone once the other is done
    assert!(lines.len() <= script.progress.len() + 1, "{lines:?}");
    let mut rest = lines.iter();
    for expected in script.progress {
        assert!(rest.any(|line| line == expected), "{expected} is not in its place: {lines:?}");
    }
    let mut later = script.command(&folder);
    later.env("PATH", path_to_reading_rt(&folder));
    let later = run(later, "later calls\n");
    assert_eq!((later.status, &later.answers[..], &later.messages[..]), (Some(0), "later calls\n", ""));
}

#[test]
fn simulate_shows_each_crate_in_order() {
    shows_each_crate_in_order(&SIMULATE);
}

#[test]
fn join_shows_each_crate_in_order() {
    shows_each_crate_in_order(&JOIN);
}

/// On a terminal: it waits while another run has the lock, is stopped, leaves nothing running, and goes on from there.
#[test]
fn goes_on_where_it_was_stopped() {
    let folder = repository();
    let root = folder.path("").canonicalize().expect("the folder is there");
    let mut other = Command::new("flock");
    other.arg("--no-fork").arg(&root).args(["sh", "-c", "echo locked; exec cat"]);
    let mut other = Running::start(other);
    assert_eq!(other.lines().receive(), "locked");
    // the terminal's own shell goes on after Ctrl-C, and runs in another folder
    let line = format!("trap : INT; RT_JOBS=2 '{}/simulate'; echo status $?; read end", root.display());
    let mut terminal = Terminal::start(&line, &std::env::temp_dir());
    terminal.await_text("simulate: waiting for another run");
    drop(other);
    terminal.await_text(SIMULATE.progress[0]);
    terminal.await_text(SIMULATE.progress[1]);
    terminal.press(CTRL_C);
    terminal.await_text("status 130");
    assert_eq!(processes_in(&root), Vec::<PathBuf>::new());
    terminal.press("\n");
    terminal.end();
    let one = || {
        fs::metadata(root.join("crates/one/out/rlib/one.rlib")).and_then(|one| one.modified()).expect("one is proved")
    };
    let proved = one();

    let mut terminal = Terminal::start("stty cols 100; RT_JOBS=2 exec ./simulate", &root);
    terminal.await_text("Ctrl-D");
    terminal.press("calls\n");
    let (status, shown) = terminal.end();
    assert_eq!((status, one()), (Some(0), proved), "{shown}");
    let lines: Vec<_> = shown.split("\r\n").collect();
    assert!(lines[2].contains("keyboard"), "{shown}");
    assert_eq!(lines[3..], ["calls", "calls", ""], "{shown}");
    // one line, written over
    let texts: Vec<_> = lines[1].split('\r').skip(1).collect();
    assert!(texts.iter().all(|text| text.len() == 99), "{shown}");
    let mut seconds = 0;
    let mut texts = texts.iter().map(|text| without_seconds(text.trim_end(), &mut seconds));
    for expected in &SIMULATE.progress[1..] {
        assert!(texts.any(|text| text == *expected), "{expected} is not in its place: {shown}");
    }
}

/// What is wrong with the crate `one`: its text, and what rt then says of it and of the crates above.
type Wrong = (&'static str, &'static [&'static str]);

/// One that cannot be read, and one that does not meet its contract.
const WRONG: [Wrong; 2] = [
    (
        "pub fn one() -> usize { 7\n",
        &["crates/one/src/lib.rt:1:", "rt: mend these first: no library was built, and no proof was checked"],
    ),
    (
        "#![tactic(auto)]

ghost use Rattle.std.specs.Prelude.{◌≡◌};

pub fn one() -> usize
    ensures { result ≡ 8 }
{
    7
}
",
        &["== one\n", "src/lib.rt:5:1:", "fn one::one: no proof", "logic=not-proved", "one: failed (1)"],
    ),
];

/// An error in a crate: all that rt says of it is shown, and nothing is answered.
#[test]
fn shows_what_is_wrong_with_a_crate() {
    for script in [SIMULATE, JOIN] {
        for (text, said) in WRONG {
            let folder = repository();
            folder.write("crates/one/src/lib.rt", text);
            let ended = run(script.command(&folder), "calls\n");
            assert_eq!((ended.status, &ended.answers[..]), (Some(1), ""), "{}", ended.messages);
            let name = script.name;
            let not_built = format!("{name}: not proved, so not built\n");
            assert!(ended.messages.ends_with(&not_built), "{not_built} does not end {}", ended.messages);
            for said in said {
                assert!(ended.messages.contains(said), "{said} is not in {}", ended.messages);
            }
            if ended.messages.contains("one: failed") {
                let not_run = format!("{name}: not run, since one failed");
                assert!(ended.messages.contains(&not_run), "{not_run} is not in {}", ended.messages);
            }
            let made = folder.path("target").exists() || folder.path(&format!("crates/{name}/out/{name}")).exists();
            assert!(!made, "something is built: {}", ended.messages);
        }
    }
}
