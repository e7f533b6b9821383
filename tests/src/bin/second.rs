//! The second implementation as a program: standard input to standard output.

use simulator_tests::lines::Answerer;
use std::io::{stdin, stdout, Read, Result, Write};

fn main() -> Result<()> {
    let mut answerer = Answerer::default();
    let mut buffer = vec![0; 65_536];
    loop {
        let length = stdin().lock().read(&mut buffer)?;
        if length == 0 {
            break;
        }
        write(&answerer.feed(&buffer[..length]))?;
    }
    write(&answerer.end())
}

fn write(answers: &[u8]) -> Result<()> {
    let mut output = stdout().lock();
    output.write_all(answers)?;
    output.flush()
}
