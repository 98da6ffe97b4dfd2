//! Prints each call of framed recordings in full, as `crates/calls` does, so that `oracle/compare` can hold this receiver to the
//! original: answers, PDUs, indications and files.

use plain::recording::{open, record};
use plain::{pdu, Indication, Receiver};
use std::io::{self, BufWriter, Read, Write};

/// Bytes in hex.
fn hex(bytes: &[u8]) -> String {
    bytes.iter().map(|byte| format!("{:02x}", byte)).collect()
}

/// An indication's line.
fn line(indication: &Indication) -> String {
    match *indication {
        Indication::Metadata { id, size } => format!("metadata {} {} {}", id.source, id.seq, size),
        Indication::Segment { id, offset, len } => {
            format!("segment {} {} {} {}", id.source, id.seq, offset, len)
        }
        Indication::Eof { id } => format!("eof {} {}", id.source, id.seq),
        Indication::Finished {
            id,
            condition,
            delivery,
            status,
        } => {
            format!(
                "finished {} {} {} {} {}",
                id.source, id.seq, condition, delivery, status
            )
        }
        Indication::Fault {
            handler,
            id,
            condition,
            progress,
        } => {
            format!(
                "fault {} {} {} {} {}",
                handler, id.source, id.seq, condition, progress
            )
        }
    }
}

/// The lines of the last call.
fn show(receiver: &Receiver, number: usize, answer: u8, out: &mut impl Write) -> io::Result<()> {
    let sent = receiver.sent();
    writeln!(out, "{} {} {}", number, answer, u8::from(!sent.is_empty()))?;
    if !sent.is_empty() {
        writeln!(out, "pdu {}", hex(sent))?;
    }
    for indication in receiver.indications() {
        writeln!(out, "{}", line(indication))?;
    }
    writeln!(out, "file {}", hex(receiver.file()))
}

/// The lines of one recording.
fn replay(bytes: &[u8], out: &mut impl Write) -> io::Result<()> {
    let (mut accepted, mut refused, mut stored) = (0u32, 0u32, 0u32);
    if let Some((mut receiver, mut at)) = open(bytes) {
        writeln!(out, "RXT 1")?;
        let mut number = 0;
        while at < bytes.len() {
            let record = match record(&bytes[at..]) {
                Some(record) => record,
                None => {
                    writeln!(out, "bad {}", at)?;
                    break;
                }
            };
            let answer = receiver.call(&record);
            number += 1;
            at += record.len;
            if answer == 0 {
                accepted = accepted.saturating_add(1);
                stored = stored.saturating_add(receiver.taken() as u32);
            } else {
                refused = refused.saturating_add(1);
            }
            show(&receiver, number, answer, out)?;
        }
    } else {
        writeln!(out, "bad 0")?;
    }
    writeln!(out, "tally {} {} {}", accepted, refused, stored)
}

fn main() -> io::Result<()> {
    let mut bytes = Vec::new();
    io::stdin().read_to_end(&mut bytes)?;
    let mut out = BufWriter::new(io::stdout().lock());
    let mut rest = &bytes[..];
    while rest.len() >= 4 {
        let end = 4 + pdu::number(&rest[..4]) as usize;
        replay(&rest[4..end], &mut out)?;
        rest = &rest[end..];
    }
    out.flush()
}
