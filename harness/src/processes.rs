//! The programs as processes.

use crate::library::Programs;
use crate::plain::programs::INPUT;
use std::io::{Read, Write};
use std::process::{Command, Stdio};

/// The commands that run the programs, each a program and its words.
pub struct Processes {
    pub clauses: Vec<String>,
    pub settings: Vec<String>,
    pub values: Vec<String>,
}

impl Programs for Processes {
    fn clauses(&mut self, input: &[u8]) -> Vec<u8> {
        run(&self.clauses, input)
    }

    fn settings(&mut self, input: &[u8]) -> Vec<u8> {
        run(&self.settings, input)
    }

    fn values(&mut self, input: &[u8]) -> Vec<u8> {
        run(&self.values, input)
    }
}

/// What a program writes; it must end with status 0 and say nothing on standard error.
fn run(words: &[String], input: &[u8]) -> Vec<u8> {
    let mut command = Command::new(&words[0]);
    command.args(&words[1..]).stdin(Stdio::piped()).stdout(Stdio::piped()).stderr(Stdio::piped());
    let mut process = command.spawn().unwrap_or_else(|e| panic!("{words:?} does not start: {e}"));
    let mut to = process.stdin.take().expect("the input is a pipe");
    let input = input.to_vec();
    // a program that reads no further than its limit may end before it has taken all: that is no fault
    let feeder = std::thread::spawn(move || {
        let _ = feed(&mut to, &input);
    });
    let output = process.wait_with_output().expect("the program ends");
    feeder.join().expect("the input is written");
    assert!(output.status.success(), "{words:?} ends with {}", output.status);
    assert!(output.stderr.is_empty(), "{words:?} says {}", output.stderr.escape_ascii());
    output.stdout
}

/// Hands the input over in pieces, so that a program meets short reads.
fn feed(to: &mut impl Write, input: &[u8]) -> std::io::Result<()> {
    let piece = 1 + input.len() / 3 + input.first().map_or(0, |&b| usize::from(b));
    for part in input.chunks(piece) {
        to.write_all(part)?;
        to.flush()?;
        std::thread::yield_now();
    }
    Ok(())
}

/// Makes a program of a function: standard input, as far as a program reads it, to standard output.
pub fn be(program: fn(&[u8]) -> String) -> std::io::Result<()> {
    let mut input = vec![];
    std::io::stdin().take(INPUT as u64).read_to_end(&mut input)?;
    std::io::stdout().write_all(program(&input).as_bytes())
}
