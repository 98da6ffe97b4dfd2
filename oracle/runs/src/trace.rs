//! The trace: what each call of a recording answered, sent, indicated and left in the file, in lines.

use crate::recording::Recording;

/// An indication or a fault report; ids are values.
#[derive(Debug, Clone, Copy, PartialEq, Eq)]
pub enum Indication {
    Metadata {
        id: Id,
        size: u64,
    },
    Segment {
        id: Id,
        offset: u64,
        len: u64,
    },
    Eof {
        id: Id,
    },
    Finished {
        id: Id,
        condition: u8,
        delivery: u8,
        status: u8,
    },
    Fault {
        handler: u8,
        id: Id,
        condition: u8,
        progress: u64,
    },
}

/// Source id and sequence number of a transaction, as values.
#[derive(Debug, Clone, Copy, PartialEq, Eq)]
pub struct Id {
    pub source: u64,
    pub seq: u64,
}

/// One call's outcome.
#[derive(Debug, Clone, PartialEq, Eq, Default)]
pub struct Call {
    pub answer: u8,
    pub pdu: Option<Vec<u8>>,
    pub indications: Vec<Indication>,
    pub file: Vec<u8>,
    /// The bytes of a segment that this call took.
    pub segment_len: u64,
    /// A panic that no rule explains, in place of an answer.
    pub panic: Option<String>,
}

/// Something that takes the calls of one recording.
pub trait Receiver {
    /// Takes one record.
    fn call(&mut self, timer: bool, pdu: Option<&[u8]>) -> Call;
}

/// Bytes in hex.
pub fn hex(bytes: &[u8]) -> String {
    const DIGITS: &[u8; 16] = b"0123456789abcdef";
    let digit = |nibble: u8| DIGITS[usize::from(nibble)] as char;
    bytes
        .iter()
        .flat_map(|byte| [digit(byte >> 4), digit(byte & 15)])
        .collect()
}

/// Hex back into bytes.
pub fn unhex(text: &str) -> Option<Vec<u8>> {
    let digits: Option<Vec<u32>> = text
        .trim()
        .chars()
        .map(|digit| digit.to_digit(16))
        .collect();
    let digits = digits.filter(|digits| digits.len() % 2 == 0)?;
    Some(
        digits
            .chunks(2)
            .map(|pair| (pair[0] << 4 | pair[1]) as u8)
            .collect(),
    )
}

impl Indication {
    /// The indication's line.
    fn line(&self) -> String {
        match *self {
            Self::Metadata { id, size } => format!("metadata {} {} {size}", id.source, id.seq),
            Self::Segment { id, offset, len } => {
                format!("segment {} {} {offset} {len}", id.source, id.seq)
            }
            Self::Eof { id } => format!("eof {} {}", id.source, id.seq),
            Self::Finished {
                id,
                condition,
                delivery,
                status,
            } => {
                format!(
                    "finished {} {} {condition} {delivery} {status}",
                    id.source, id.seq
                )
            }
            Self::Fault {
                handler,
                id,
                condition,
                progress,
            } => {
                format!(
                    "fault {handler} {} {} {condition} {progress}",
                    id.source, id.seq
                )
            }
        }
    }
}

impl Call {
    /// The lines of the call with this number.
    fn lines(&self, number: usize) -> Vec<String> {
        let sent = u8::from(self.pdu.is_some());
        let mut lines = vec![match &self.panic {
            None => format!("{number} {} {sent}", self.answer),
            Some(panic) => format!("{number} panic {panic}"),
        }];
        lines.extend(self.pdu.iter().map(|pdu| format!("pdu {}", hex(pdu))));
        lines.extend(self.indications.iter().map(Indication::line));
        lines.push(format!("file {}", hex(&self.file)));
        lines
    }
}

/// Counts that stop at 2^32 - 1.
#[derive(Default)]
struct Tally {
    accepted: u32,
    refused: u32,
    bytes: u32,
}

impl Tally {
    /// Counts a call.
    fn count(&mut self, call: &Call) {
        if call.answer == 0 && call.panic.is_none() {
            self.accepted = self.accepted.saturating_add(1);
            let len = u32::try_from(call.segment_len).unwrap_or(u32::MAX);
            self.bytes = self.bytes.saturating_add(len);
        } else {
            self.refused = self.refused.saturating_add(1);
        }
    }

    /// The line that ends a trace.
    fn line(&self) -> String {
        format!("tally {} {} {}", self.accepted, self.refused, self.bytes)
    }
}

/// A recording's trace; `recording` is nothing where the header is bad.
pub fn trace(
    recording: Option<&Recording>,
    receiver: impl FnOnce(&Recording) -> Vec<Call>,
) -> Vec<String> {
    let mut tally = Tally::default();
    let mut lines = Vec::new();
    match recording {
        None => lines.push("bad 0".to_string()),
        Some(recording) => {
            lines.push("RXT 1".to_string());
            for (i, call) in receiver(recording).iter().enumerate() {
                tally.count(call);
                lines.extend(call.lines(i + 1));
            }
            lines.extend(recording.bad.map(|at| format!("bad {at}")));
        }
    }
    lines.push(tally.line());
    lines
}

/// Hands every record of a recording to a receiver.
pub fn replay(recording: &Recording, receiver: &mut dyn Receiver) -> Vec<Call> {
    let records = recording.records.iter();
    records
        .map(|record| receiver.call(record.timer, record.pdu.as_deref()))
        .collect()
}
