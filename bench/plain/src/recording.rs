//! Recordings, read (document 01, 'The recording program').

use crate::pdu::number;
use crate::{Config, Receiver, Remote};

const FIXED_LEN: usize = 28;
const ENTRY_LEN: usize = 13;

/// One call: a PDU or none, what the timer says, and how many bytes the record has.
pub struct Record<'a> {
    pub pdu: Option<&'a [u8]>,
    pub timer: bool,
    pub len: usize,
}

/// A header: the configuration, the store's length, and how many bytes the header has.
pub struct Settings {
    pub config: Config,
    pub store_len: usize,
    pub len: usize,
}

/// Reads a header. Nothing where it is not whole, or has another mark, version, flag or discard.
pub fn settings(bytes: &[u8]) -> Option<Settings> {
    let fixed = bytes.get(..FIXED_LEN)?;
    let len = FIXED_LEN + ENTRY_LEN * usize::from(fixed[27]);
    let entries = bytes.get(FIXED_LEN..len)?.chunks(ENTRY_LEN);
    if &fixed[..5] != b"RXT\0\x01" || fixed[26] > 3 || entries.clone().any(|entry| entry[12] > 1) {
        return None;
    }
    let config = Config {
        local_width: fixed[5].into(),
        local_id: number(&fixed[6..14]),
        handlers: fixed[16..26].try_into().unwrap(),
        segment_indication: fixed[26] & 1 != 0,
        eof_indication: fixed[26] & 2 != 0,
        remotes: entries
            .map(|entry| Remote {
                id: number(&entry[..8]),
                limit: number(&entry[8..12]) as u32,
                discard: entry[12] == 1,
            })
            .collect(),
    };
    Some(Settings {
        config,
        store_len: number(&fixed[14..16]) as usize,
        len,
    })
}

/// Reads a header: a fresh receiver, and the header's length. Nothing where it is bad.
pub fn open(bytes: &[u8]) -> Option<(Receiver, usize)> {
    let settings = settings(bytes)?;
    let receiver = Receiver::new(settings.config, settings.store_len).ok()?;
    Some((receiver, settings.len))
}

/// Reads the record at the start of some bytes. Nothing where it is broken.
pub fn record(bytes: &[u8]) -> Option<Record> {
    let head = bytes.get(..2)?;
    if head[0] > 1 || head[1] > 1 {
        return None;
    }
    let timer = head[1] == 1;
    if head[0] == 0 {
        return Some(Record {
            pdu: None,
            timer,
            len: 2,
        });
    }
    let len = 4 + number(bytes.get(2..4)?) as usize;
    let pdu = Some(bytes.get(4..len)?);
    Some(Record { pdu, timer, len })
}

impl Receiver {
    /// Makes the call that a record stands for.
    pub fn call(&mut self, record: &Record) -> u8 {
        match record.pdu {
            Some(pdu) => self.insert(pdu, record.timer),
            None => self.poll(record.timer),
        }
    }
}
