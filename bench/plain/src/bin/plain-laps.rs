//! The plain receiver in laps: the last calls of a recording, repeated (bench/README.md, 'Laps').

use plain::recording::{open, record};
use plain::{laps, Receiver};
use std::io::{self, Read};

/// Makes the calls of the records in some bytes, and tells the last one's answer.
fn run(receiver: &mut Receiver, bytes: &[u8], mut answer: u8) -> u8 {
    let mut at = 0;
    while let Some(record) = record(&bytes[at..]) {
        answer = receiver.call(&record);
        at += record.len;
    }
    answer
}

/// The line to print. Nothing where the input is bad.
fn line(input: &[u8]) -> Option<String> {
    let laps = laps::read(input)?;
    let (mut receiver, _) = open(laps.header)?;
    let mut answer = run(&mut receiver, laps.first, 0);
    for _ in 0..laps.n {
        answer = run(&mut receiver, laps.lap, answer);
    }
    let (progress, len) = (receiver.progress(), receiver.file().len());
    Some(format!("laps {} {} {} {}", laps.n, answer, progress, len))
}

fn main() -> io::Result<()> {
    let mut input = Vec::new();
    io::stdin().read_to_end(&mut input)?;
    println!("{}", line(&input).unwrap_or_else(|| "bad".to_string()));
    Ok(())
}
