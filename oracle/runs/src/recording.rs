//! Recordings: a configuration and the calls to replay (document 01, 'The recording program').

/// Conditions that have a fault handler, in the order of the header's ten bytes.
pub const CONDITIONS: [u8; 10] = [1, 2, 3, 4, 5, 6, 7, 8, 10, 11];
/// The header's bytes before the remote entries.
pub const FIXED_LEN: usize = 28;
/// The bytes of a remote entry.
pub const ENTRY_LEN: usize = 13;

/// What is known of a remote entity.
#[derive(Debug, Clone, Copy, PartialEq, Eq)]
pub struct Remote {
    pub id: u64,
    pub limit: u32,
    pub discard: bool,
}

/// A recording's header.
#[derive(Debug, Clone, PartialEq, Eq)]
pub struct Config {
    pub local_width: u8,
    pub local_id: u64,
    pub store_len: u16,
    pub handlers: [u8; 10],
    pub segment_indication: bool,
    pub eof_indication: bool,
    pub remotes: Vec<Remote>,
}

/// One call: a poll or a PDU, and what the check timer says.
#[derive(Debug, Clone, PartialEq, Eq)]
pub struct Record {
    pub timer: bool,
    pub pdu: Option<Vec<u8>>,
}

/// A recording as it is read: what follows the records is the offset of a broken one.
#[derive(Debug, Clone, PartialEq, Eq)]
pub struct Recording {
    pub config: Config,
    pub records: Vec<Record>,
    pub bad: Option<usize>,
}

/// A big-endian number.
pub fn number(bytes: &[u8]) -> u64 {
    bytes.iter().fold(0, |n, byte| (n << 8) | u64::from(*byte))
}

/// Whether a value fits a width of so many bytes.
pub fn fits(value: u64, width: u8) -> bool {
    width >= 8 || value >> (8 * u32::from(width)) == 0
}

impl Config {
    /// Reads a header and its length; nothing where the program prints `bad 0`.
    pub fn read(bytes: &[u8]) -> Option<(Self, usize)> {
        let fixed = bytes.get(..FIXED_LEN)?;
        let count = usize::from(fixed[27]);
        let len = FIXED_LEN + ENTRY_LEN * count;
        let remotes = bytes.get(FIXED_LEN..len)?.chunks(ENTRY_LEN);
        if remotes.clone().any(|entry| entry[12] > 1) || fixed[26] > 3 {
            return None;
        }
        let config = Self {
            local_width: fixed[5],
            local_id: number(&fixed[6..14]),
            store_len: number(&fixed[14..16]) as u16,
            handlers: fixed[16..26].try_into().unwrap(),
            segment_indication: fixed[26] & 1 != 0,
            eof_indication: fixed[26] & 2 != 0,
            remotes: remotes
                .map(|entry| Remote {
                    id: number(&entry[..8]),
                    limit: number(&entry[8..12]) as u32,
                    discard: entry[12] == 1,
                })
                .collect(),
        };
        Some((config, len)).filter(|(config, _)| &fixed[..5] == b"RXT\0\x01" && config.is_sound())
    }

    /// Whether refusal 21 lets a configuration pass.
    fn is_sound(&self) -> bool {
        let ids: Vec<u64> = self.remotes.iter().map(|remote| remote.id).collect();
        matches!(self.local_width, 1 | 2 | 4 | 8)
            && fits(self.local_id, self.local_width)
            && self.handlers.iter().all(|code| matches!(code, 1 | 3 | 4))
            && ids.len() <= 8
            && (1..ids.len()).all(|i| !ids[..i].contains(&ids[i]))
    }

    /// The header's bytes, whether it is sound or not.
    pub fn write(&self) -> Vec<u8> {
        let mut bytes = b"RXT\0\x01".to_vec();
        bytes.push(self.local_width);
        bytes.extend(self.local_id.to_be_bytes());
        bytes.extend(self.store_len.to_be_bytes());
        bytes.extend(self.handlers);
        bytes.push(u8::from(self.segment_indication) | u8::from(self.eof_indication) << 1);
        bytes.push(self.remotes.len() as u8);
        for remote in &self.remotes {
            bytes.extend(remote.id.to_be_bytes());
            bytes.extend(remote.limit.to_be_bytes());
            bytes.push(u8::from(remote.discard));
        }
        bytes
    }

    /// The handler of a condition; those without one are ignored (3).
    pub fn handler(&self, condition: u8) -> u8 {
        let place = CONDITIONS.iter().position(|known| *known == condition);
        place.map_or(3, |place| self.handlers[place])
    }

    /// The entry of a remote entity.
    pub fn remote(&self, id: u64) -> Option<&Remote> {
        self.remotes.iter().find(|remote| remote.id == id)
    }
}

impl Record {
    /// Reads a record and its length; nothing where it is broken.
    fn read(bytes: &[u8]) -> Option<(Self, usize)> {
        let (kind, timer) = (*bytes.first()?, *bytes.get(1)?);
        if kind > 1 || timer > 1 {
            return None;
        }
        let timer = timer == 1;
        if kind == 0 {
            return Some((Self { timer, pdu: None }, 2));
        }
        let end = 4 + number(bytes.get(2..4)?) as usize;
        let pdu = Some(bytes.get(4..end)?.to_vec());
        Some((Self { timer, pdu }, end))
    }

    /// The record's bytes.
    pub fn write(&self) -> Vec<u8> {
        let mut bytes = vec![u8::from(self.pdu.is_some()), u8::from(self.timer)];
        if let Some(pdu) = &self.pdu {
            bytes.extend((pdu.len() as u16).to_be_bytes());
            bytes.extend(pdu);
        }
        bytes
    }
}

impl Recording {
    /// Reads a recording up to its end or its first broken record; nothing where the header is bad.
    pub fn read(bytes: &[u8]) -> Option<Self> {
        let (config, mut at) = Config::read(bytes)?;
        let mut recording = Self {
            config,
            records: Vec::new(),
            bad: None,
        };
        while at < bytes.len() {
            match Record::read(&bytes[at..]) {
                Some((record, len)) => {
                    recording.records.push(record);
                    at += len;
                }
                None => {
                    recording.bad = Some(at);
                    break;
                }
            }
        }
        Some(recording)
    }

    /// The bytes of header and records.
    pub fn write(&self) -> Vec<u8> {
        let mut bytes = self.config.write();
        for record in &self.records {
            bytes.extend(record.write());
        }
        bytes
    }
}

/// Puts a length of four bytes before each recording.
pub fn frame(recordings: &[Vec<u8>]) -> Vec<u8> {
    let mut framed = Vec::new();
    for recording in recordings {
        framed.extend((recording.len() as u32).to_be_bytes());
        framed.extend(recording);
    }
    framed
}

/// Takes framed recordings apart; nothing where a frame is cut off.
pub fn unframe(mut framed: &[u8]) -> Option<Vec<Vec<u8>>> {
    let mut recordings = Vec::new();
    while !framed.is_empty() {
        let end = 4 + number(framed.get(..4)?) as usize;
        recordings.push(framed.get(4..end)?.to_vec());
        framed = &framed[end..];
    }
    Some(recordings)
}
