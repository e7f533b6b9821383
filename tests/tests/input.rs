//! How the program takes its input and gives its output, on the program alone.

use simulator_tests::compare::difference_from_list;
use simulator_tests::damage::long_form;
use simulator_tests::lists::{list, LateNetwork};
use simulator_tests::program::{self, Running};
use simulator_tests::random::{setting, Random};
use std::io::Write;
use std::process::{ChildStdin, Command, ExitStatus};
use std::thread;

/// A person who waits for each answer before the next line gets it.
#[test]
fn answers_each_line_as_it_comes() {
    let mut program = Running::start(program::command());
    let (mut input, output) = (program.take_input(), program.lines());
    let list = list(setting("SEED", 5), 0, 400, LateNetwork::Yes);
    for (call, answer) in list.calls.iter().zip(&list.answers) {
        input.write_all(&[call, &b"\n"[..]].concat()).expect("the line is written");
        let lines: Vec<String> = answer.iter().map(|_| output.receive()).collect();
        assert_eq!(&lines, answer, "{}", String::from_utf8_lossy(call));
    }
    drop(input);
    assert!(program.wait().success());
}

/// The answer does not wait for the rest of the next line.
#[test]
fn answers_before_the_next_line_is_whole() {
    let mut program = Running::start(program::command());
    let (mut input, output) = (program.take_input(), program.lines());
    for part in ["(show)\n(sh", "ow)\n(", "show)\n(show)"] {
        input.write_all(part.as_bytes()).expect("the part is written");
        assert_eq!(output.receive(), "(end)", "{part}");
    }
    drop(input);
    assert_eq!(output.receive(), "(end)");
    assert!(program.wait().success());
}

/// Lines that come in pieces, cut anywhere.
#[test]
fn lines_cut_over_several_writes() {
    let mut random = Random::new(setting("SEED", 6), 0);
    let list = list(setting("SEED", 6), 1, 400, LateNetwork::Yes);
    let whole = list.input();
    let mut program = Running::start(program::command());
    let input = program.take_input();
    let writer = thread::spawn(move || program::write_in_pieces(input, &whole, &mut random));
    let output = program.finish();
    writer.join().expect("the input is written");
    assert_eq!(difference_from_list(&list, &output), None);
}

#[test]
fn a_line_of_ten_megabytes() {
    let line = vec![b'1'; 10_000_000];
    let input = [&line[..], b"\n(show)\n", &line, b"\n(show)\n(show)\n", &line].concat();
    let expected = "(no 1)\n(end)\n(no 1)\n(end)\n(end)\n(no 1)\n";
    assert_eq!(String::from_utf8_lossy(&program::run(&input)), expected);
    assert_eq!(String::from_utf8_lossy(&program::run(&line)), "(no 1)\n");
}

/// About a megabyte of calls, so that lines and answers lie across the ends of any buffer.
#[test]
fn a_long_list() {
    let list = list(setting("SEED", 7), 2, 60_000, LateNetwork::Yes);
    assert_eq!(difference_from_list(&list, &program::run(&list.input())), None);
}

/// The program once it has answered every call of this input, waiting for more as long as the input is kept.
fn after_all_answers(whole: Vec<u8>, calls: usize) -> (Running, ChildStdin) {
    let mut program = Running::start(program::command());
    let (mut input, output) = (program.take_input(), program.lines());
    let writer = thread::spawn(move || {
        input.write_all(&whole).expect("the input is written");
        input
    });
    for _ in 0..calls {
        output.receive();
    }
    (program, writer.join().expect("the input is written"))
}

/// 50 MB of input, half of it one line, in bounded memory.
#[test]
fn memory_is_bounded() {
    let half = 25_000_000;
    let line = long_form(399) + "\n";
    let calls = half / line.len();
    let input = [line.repeat(calls), long_form(half), "\n".to_string()].concat();
    let (program, _input) = after_all_answers(input.into_bytes(), calls + 1);
    let peak = program.field("status", "VmHWM:");
    assert!(peak < 16_384, "{peak} kB");
}

/// Where input is plentiful, many answers go out in one write.
#[test]
fn few_writes() {
    let calls = 200_000;
    let (program, _input) = after_all_answers(b"(close 1)\n".repeat(calls), calls);
    let writes = program.field("io", "syscw:");
    assert!(writes < calls as u64 / 50, "{writes} writes for {calls} answers");
}

/// Nobody reads on: the program ends by itself though its input goes on.
fn ends_when_its_output_is_closed(command: Command) -> ExitStatus {
    let mut program = Running::start(command);
    let (mut input, output) = (program.take_input(), program.lines());
    // It ends where the program has, since the pipe is closed then.
    let writer = thread::spawn(move || while input.write_all(&b"(show)\n".repeat(1000)).is_ok() {});
    assert_eq!(output.receive(), "(end)");
    drop(output);
    let status = program.wait();
    writer.join().expect("the writer ends");
    status
}

/// The program ignores the signal of a broken pipe as it starts, so it is the failed write that ends it.
#[test]
fn ends_by_itself_when_its_output_is_closed() {
    assert!(ends_when_its_output_is_closed(program::command()).success());
}

/// Where that signal is ignored from outside too.
#[test]
fn ends_without_the_signal_when_its_output_is_closed() {
    let mut command = Command::new("sh");
    command.args(["-c", "trap '' PIPE; exec \"$0\""]).arg(program::command().get_program());
    assert!(ends_when_its_output_is_closed(command).success());
}
