//! The files that `join` reads (#106): those that can't be read, and those of any size and kind. SEED in the environment chooses
//! other pieces.

use simulator_tests::compare::{check_join, difference};
use simulator_tests::networks::{fullest, fullest_in_halves, text};
use simulator_tests::program::{self, command_of, write_in_pieces, Running};
use simulator_tests::random::{setting, Random};
use simulator_tests::script::{self, here};
use simulator_tests::small::Folder;
use std::ffi::OsStr;
use std::fs::{self, File};
use std::io::Write;
use std::os::unix::ffi::OsStrExt;
use std::path::{Path, PathBuf};
use std::process::Command;
use std::thread;

const UNSORTED: &[u8] = b"(no 15)\n";

/// A folder with the example of an office.
fn with_office() -> Folder {
    let folder = Folder::temporary();
    folder.copy(&[here("examples/office.net")]);
    folder
}

/// The file by a name of so many bytes.
fn long_name(path: &Path, length: usize) -> PathBuf {
    let path = path.to_str().expect("the path is text");
    PathBuf::from("/".repeat(length - path.len()) + path)
}

#[test]
fn files_that_cannot_be_read() {
    let folder = with_office();
    folder.write("folder/in it", "");
    let office = folder.path("office.net");
    let cut_short = PathBuf::from(format!("{}{}", long_name(&office, 4095).display(), "e".repeat(905)));
    let names = [
        folder.path("none"),
        folder.path("folder"),
        office.join("office.net"),
        PathBuf::new(),
        long_name(&office, 4096),
        long_name(&office, 5000),
        cut_short,
    ];
    for name in names {
        check_join("no file", [&office, &name], UNSORTED);
        check_join("no file twice", [&name, &name], UNSORTED);
    }
}

/// Of the most bytes that a name may have, and with a byte that is in no text: a file of such a name `./join` opens for the
/// program, whose own library opens none.
#[test]
fn names_of_any_kind() {
    let folder = with_office();
    let office = folder.path("office.net");
    let text = fs::read(&office).expect("the example is read");
    check_join("a file", [&office, &long_name(&office, 4095)], &text);
    let no_text = folder.path("").join(OsStr::from_bytes(b"\xff"));
    fs::copy(&office, &no_text).expect("the file is copied");
    for names in [[&office, &no_text], [&no_text, &office], [&no_text, &no_text]] {
        let mut command = Command::new(here("join"));
        command.args(names);
        let ended = script::run(command, "");
        assert_eq!((ended.status, ended.answers.as_bytes(), &ended.messages[..]), (Some(0), &text[..], ""), "{names:?}");
    }
}

/// A missing argument is a file that can't be read, and those behind the second are not looked at.
#[test]
fn arguments_missing_and_left_over() {
    let [office, house, both, none] =
        ["office.net", "house.net", "office-and-house.net", "none"].map(|name| here("examples").join(name));
    let both = fs::read(both).expect("the example is read");
    let joins: [(&[&PathBuf], &[u8]); 5] = [
        (&[], UNSORTED),
        (&[&office], UNSORTED),
        (&[&none], UNSORTED),
        (&[&office, &none, &house], UNSORTED),
        (&[&office, &house, &none], &both),
    ];
    for (names, expected) in joins {
        assert_eq!(difference(expected, &program::join(names)), None, "{names:?}");
    }
}

#[test]
fn a_file_without_permission() {
    let folder = with_office();
    let program = PathBuf::from(command_of("join").get_program());
    let name = program.file_name().and_then(OsStr::to_str).expect("the program has a name");
    folder.copy(&[&program]);
    folder.write("closed", "");
    let office = fs::read(folder.path("office.net")).expect("the example is read");
    let joins =
        [("office.net", "closed", UNSORTED), ("closed", "office.net", UNSORTED), ("office.net", "office.net", &office)];
    for (first, second, expected) in joins {
        let mut command = folder.close("closed", &format!("./{name}"));
        command.args([first, second]);
        assert_eq!(difference(expected, &Running::start(command).finish()), None, "{first} {second}");
    }
}

/// What the program writes with 16 megabytes of memory.
fn join_in_little_memory(names: [&Path; 2]) -> Vec<u8> {
    let mut command = Command::new("sh");
    command.args(["-c", "ulimit -v 16384 && exec \"$0\" \"$@\""]).arg(command_of("join").get_program()).args(names);
    Running::start(command).finish()
}

/// Files of 64 megabytes whose beginning is the largest network, and one without end, are refused, in bounded memory.
#[test]
fn files_of_any_size() {
    let folder = Folder::temporary();
    let largest = text(&fullest());
    folder.write("largest", &largest);
    folder.write("again", largest.repeat((1 << 26) / largest.len()));
    folder.write("zeros", &largest);
    let zeros = File::options().write(true).open(folder.path("zeros")).expect("the file is opened");
    zeros.set_len(1 << 26).expect("zeros follow the network");
    let small = folder.path("largest");
    assert_eq!(difference(&largest, &join_in_little_memory([&small, &small])), None);
    for large in [folder.path("again"), folder.path("zeros"), PathBuf::from("/dev/zero")] {
        for names in [[&small, &large], [&large, &small], [&large, &large]] {
            let written = join_in_little_memory(names.map(PathBuf::as_path));
            assert_eq!(difference(UNSORTED, &written), None, "{names:?}");
        }
    }
}

/// Writes a file's text into a pipe, in pieces, while the program runs.
fn feed<Pipe: Write>(open: impl FnOnce() -> Pipe + Send + 'static, text: &[u8]) {
    let (text, mut random) = (text.to_vec(), Random::new(setting("SEED", 18), 0));
    thread::spawn(move || write_in_pieces(open(), &text, &mut random));
}

/// Pipes, whose bytes come in pieces, are read to their ends: standard input as the first file and as the second, then two
/// others.
#[test]
fn files_that_come_in_pieces() {
    let folder = Folder::temporary();
    let (largest, halves) = (text(&fullest()), fullest_in_halves().each_ref().map(text));
    for side in 0..2 {
        folder.write("other", &halves[1 - side]);
        let mut names = [folder.path("other"), folder.path("other")];
        names[side] = "/dev/stdin".into();
        let mut command = command_of("join");
        command.args(&names);
        let mut program = Running::start(command);
        let input = program.take_input();
        feed(|| input, &halves[side]);
        assert_eq!(difference(&largest, &program.finish()), None, "{names:?}");
    }
    let pipes = ["first", "second"].map(|name| folder.path(name));
    let made = Command::new("mkfifo").args(&pipes).status();
    assert!(made.is_ok_and(|status| status.success()), "no pipes are made");
    for (pipe, half) in pipes.clone().into_iter().zip(&halves) {
        feed(|| File::options().write(true).open(pipe).expect("the pipe is opened"), half);
    }
    assert_eq!(difference(&largest, &program::join(&pipes)), None);
}
