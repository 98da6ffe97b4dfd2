//! Replays a recording from standard input and prints what document 01, 'The recording program', says of it: what `rxt` prints.

use plain::recording::{open, record};
use std::io::{self, BufWriter, Read, Write};

/// Counts that stop at 2^32 - 1.
#[derive(Default)]
struct Tally {
    accepted: u32,
    refused: u32,
    bytes: u32,
}

impl Tally {
    /// Counts a call.
    fn count(&mut self, answer: u8, bytes: usize) {
        if answer == 0 {
            self.accepted = self.accepted.saturating_add(1);
            self.bytes = self.bytes.saturating_add(bytes as u32);
        } else {
            self.refused = self.refused.saturating_add(1);
        }
    }
}

/// Prints the lines of a recording.
fn replay(bytes: &[u8], out: &mut impl Write) -> io::Result<()> {
    let mut tally = Tally::default();
    if let Some((mut receiver, mut at)) = open(bytes) {
        writeln!(out, "RXT 1")?;
        let mut number = 0;
        while at < bytes.len() {
            let record = match record(&bytes[at..]) {
                Some(record) => record,
                None => {
                    writeln!(out, "bad {}", at)?;
                    break;
                }
            };
            let answer = receiver.call(&record);
            number += 1;
            at += record.len;
            tally.count(answer, receiver.taken());
            let sent = receiver.sent();
            writeln!(out, "{} {} {}", number, answer, u8::from(!sent.is_empty()))?;
            if !sent.is_empty() {
                write!(out, "pdu ")?;
                for byte in sent {
                    write!(out, "{:02x}", byte)?;
                }
                writeln!(out)?;
            }
        }
    } else {
        writeln!(out, "bad 0")?;
    }
    writeln!(
        out,
        "tally {} {} {}",
        tally.accepted, tally.refused, tally.bytes
    )
}

fn main() -> io::Result<()> {
    let mut bytes = Vec::new();
    io::stdin().read_to_end(&mut bytes)?;
    let mut out = BufWriter::new(io::stdout().lock());
    replay(&bytes, &mut out)?;
    out.flush()
}
