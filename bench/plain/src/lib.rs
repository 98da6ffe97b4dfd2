//! A CFDP receiver by the rules of document 01 in plain Rust: unacknowledged, one file at a time, over a store in memory.
//!
//! It is what a user would write: one struct that owns its store and its buffers, and methods on it. Its fields are its own and its
//! configuration is looked at once, in `new`, so refusals 1, 2 and 21 cannot come up in a call.

pub mod laps;
pub mod pdu;
pub mod recording;

use pdu::{Header, Kind, Metadata};

/// The most bytes of a Finished PDU.
const OUT_LEN: usize = 40;

const CANCEL: u8 = 1;
const IGNORE: u8 = 3;
const ABANDON: u8 = 4;

/// What is known of a remote entity.
pub struct Remote {
    pub id: u64,
    pub limit: u32,
    pub discard: bool,
}

/// The configuration of the receiver. The handlers are those of the conditions 1 to 8, 10 and 11.
pub struct Config {
    pub local_width: usize,
    pub local_id: u64,
    pub handlers: [u8; 10],
    pub segment_indication: bool,
    pub eof_indication: bool,
    pub remotes: Vec<Remote>,
}

/// Source id and sequence number of a transfer.
#[derive(Debug, Clone, Copy, PartialEq, Eq, Default)]
pub struct Id {
    pub source: u64,
    pub seq: u64,
}

/// What a call tells its user besides the answer.
#[derive(Debug, Clone, Copy, PartialEq, Eq)]
pub enum Indication {
    Metadata {
        id: Id,
        size: u64,
    },
    Segment {
        id: Id,
        offset: u64,
        len: u64,
    },
    Eof {
        id: Id,
    },
    Finished {
        id: Id,
        condition: u8,
        delivery: u8,
        status: u8,
    },
    Fault {
        handler: u8,
        id: Id,
        condition: u8,
        progress: u64,
    },
}

#[derive(Clone, Copy, PartialEq, Eq)]
enum Step {
    Idle,
    Receiving,
    Waiting,
    Completion,
}

/// What is kept of the running transfer, and forgotten after it.
#[derive(Default)]
struct Transfer {
    id_width: usize,
    seq_width: usize,
    large: bool,
    closure: bool,
    checksum_type: u8,
    checksum: u32,
    limit: u32,
    discard: bool,
    progress: u64,
    count: u32,
    condition: u8,
    cancelled: bool,
    complete: bool,
}

/// A receiver, idle or busy with a transfer.
pub struct Receiver {
    config: Config,
    store: Vec<u8>,
    out: [u8; OUT_LEN],
    sent: usize,
    taken: usize,
    indications: Vec<Indication>,
    step: Step,
    file_len: usize,
    id: Id,
    source_name: Vec<u8>,
    dest_name: Vec<u8>,
    transfer: Transfer,
}

impl Config {
    /// Whether refusal 21 lets it pass.
    fn is_sound(&self) -> bool {
        let fits = match self.local_width {
            1 | 2 | 4 => self.local_id >> (8 * self.local_width) == 0,
            width => width == 8,
        };
        let ids = || self.remotes.iter().map(|remote| remote.id);
        fits && self
            .handlers
            .iter()
            .all(|code| matches!(*code, CANCEL | IGNORE | ABANDON))
            && self.remotes.len() <= 8
            && ids()
                .enumerate()
                .all(|(i, id)| ids().take(i).all(|other| other != id))
    }

    /// The handler of a condition.
    fn handler(&self, condition: u8) -> u8 {
        match condition {
            1..=8 => self.handlers[usize::from(condition) - 1],
            10 | 11 => self.handlers[usize::from(condition) - 2],
            _ => IGNORE,
        }
    }
}

/// The modular checksum of a file.
pub fn modular_checksum(file: &[u8]) -> u32 {
    let words = file.chunks_exact(4);
    let mut last = [0; 4];
    last[..words.remainder().len()].copy_from_slice(words.remainder());
    words.fold(u32::from_be_bytes(last), |sum, word| {
        sum.wrapping_add(u32::from_be_bytes(word.try_into().unwrap()))
    })
}

impl Receiver {
    /// An idle receiver over a store of so many zeros, or refusal 21 or 1.
    pub fn new(config: Config, store_len: usize) -> Result<Self, u8> {
        if !config.is_sound() {
            return Err(21);
        }
        if store_len > 65535 {
            return Err(1);
        }
        Ok(Self {
            config,
            store: vec![0; store_len],
            out: [0; OUT_LEN],
            sent: 0,
            taken: 0,
            indications: Vec::with_capacity(5),
            step: Step::Idle,
            file_len: 0,
            id: Id::default(),
            source_name: Vec::new(),
            dest_name: Vec::new(),
            transfer: Transfer::default(),
        })
    }

    /// One call with a PDU: the answer's number.
    pub fn insert(&mut self, pdu: &[u8], timer: bool) -> u8 {
        self.begin();
        match self.take(pdu) {
            Ok(()) => {
                self.busy(timer);
                0
            }
            Err(answer) => answer,
        }
    }

    /// One call without a PDU: the answer's number.
    pub fn poll(&mut self, timer: bool) -> u8 {
        self.begin();
        self.busy(timer);
        0
    }

    /// The last call's indications, in order.
    pub fn indications(&self) -> &[Indication] {
        &self.indications
    }

    /// The PDU that the last call sent; empty where it sent none.
    pub fn sent(&self) -> &[u8] {
        &self.out[..self.sent]
    }

    /// The file as it stands.
    pub fn file(&self) -> &[u8] {
        &self.store[..self.file_len]
    }

    /// The names of the file at its source and here; empty while idle.
    pub fn names(&self) -> (&[u8], &[u8]) {
        (&self.source_name, &self.dest_name)
    }

    /// The bytes that were received; 0 while idle.
    pub fn progress(&self) -> u64 {
        self.transfer.progress
    }

    /// The bytes of the segment that the last call took.
    pub fn taken(&self) -> usize {
        self.taken
    }

    /// A call begins with nothing told, sent or taken.
    fn begin(&mut self) {
        self.indications.clear();
        self.sent = 0;
        self.taken = 0;
    }

    /// Inserts a PDU. A refusal other than 19 leaves everything as it was.
    fn take(&mut self, pdu: &[u8]) -> Result<(), u8> {
        let header = pdu::header(pdu)?;
        let kind = pdu::kind(&header)?;
        if header.dest != self.config.local_id {
            return Err(9);
        }
        match kind {
            Kind::FileData => self.take_segment(&header),
            Kind::Eof => self.take_eof(&header),
            Kind::Metadata => self.take_metadata(&header),
        }
    }

    /// A Metadata: 11, 10 (mode), 14, 15, 10 (both names empty), 16, 17, 18, 10 (option).
    fn take_metadata(&mut self, header: &Header) -> Result<(), u8> {
        if self.step != Step::Idle {
            return Err(11);
        }
        if !header.unacknowledged {
            return Err(10);
        }
        let metadata = header.metadata()?;
        let mut remotes = self.config.remotes.iter();
        let remote = remotes
            .find(|remote| remote.id == header.id.source)
            .ok_or(15)?;
        match (
            metadata.source_name.is_empty(),
            metadata.dest_name.is_empty(),
        ) {
            (true, true) => return Err(10),
            (true, false) => return Err(16),
            (false, true) => return Err(17),
            (false, false) => {}
        }
        let is_text = |name| std::str::from_utf8(name).is_ok();
        if !is_text(metadata.source_name) || !is_text(metadata.dest_name) {
            return Err(18);
        }
        if metadata.message_to_user {
            return Err(10);
        }
        self.transfer.limit = remote.limit;
        self.transfer.discard = remote.discard;
        self.start(header, &metadata);
        Ok(())
    }

    /// A transfer starts.
    fn start(&mut self, header: &Header, metadata: &Metadata) {
        self.file_len = 0;
        self.id = header.id;
        self.step = Step::Receiving;
        self.source_name.extend_from_slice(metadata.source_name);
        self.dest_name.extend_from_slice(metadata.dest_name);
        self.transfer.id_width = header.id_width;
        self.transfer.seq_width = header.seq_width;
        self.transfer.large = header.large;
        self.transfer.closure = metadata.closure;
        self.transfer.checksum_type = metadata.checksum_type;
        self.indications.push(Indication::Metadata {
            id: self.id,
            size: metadata.size,
        });
    }

    /// A segment: 12, 13, 14, 20, 19.
    fn take_segment(&mut self, header: &Header) -> Result<(), u8> {
        if self.step != Step::Receiving && self.step != Step::Waiting {
            return Err(12);
        }
        if header.id != self.id {
            return Err(13);
        }
        let (offset, bytes) = header.segment()?;
        let len = bytes.len() as u64;
        let progress = self.transfer.progress.checked_add(len).ok_or(20)?;
        if self.config.segment_indication {
            self.indications.push(Indication::Segment {
                id: self.id,
                offset,
                len,
            });
        }
        if !self.write(offset, bytes) {
            self.fault(4);
            return Err(19);
        }
        self.transfer.progress = progress;
        self.taken = bytes.len();
        Ok(())
    }

    /// Writes a segment at its offset, with zeros before it where the file is shorter. Whether it fits the store.
    fn write(&mut self, offset: u64, bytes: &[u8]) -> bool {
        if bytes.is_empty() {
            return true;
        }
        let end = match offset.checked_add(bytes.len() as u64) {
            Some(end) if end <= self.store.len() as u64 => end as usize,
            _ => return false,
        };
        let start = end - bytes.len();
        if self.file_len < start {
            self.store[self.file_len..start].fill(0);
        }
        self.store[start..end].copy_from_slice(bytes);
        self.file_len = self.file_len.max(end);
        true
    }

    /// An EOF: 12, 13, 14 (under 2 bytes), 10, 14 (length).
    fn take_eof(&mut self, header: &Header) -> Result<(), u8> {
        if self.step != Step::Receiving {
            return Err(12);
        }
        if header.id != self.id {
            return Err(13);
        }
        let (checksum, size) = header.eof()?;
        if self.config.eof_indication {
            self.indications.push(Indication::Eof { id: self.id });
        }
        if self.transfer.progress > size && self.fault(6) != IGNORE {
            return Ok(());
        }
        self.transfer.checksum = checksum;
        match self.verify() {
            None => {}
            Some(true) => self.step = Step::Completion,
            Some(false) => {
                if self.fault(5) == IGNORE {
                    self.transfer.count = 0;
                    self.step = Step::Waiting;
                }
            }
        }
        Ok(())
    }

    /// Whether the file is the one that was sent. Nothing where fault 11 abandoned the transfer.
    fn verify(&mut self) -> Option<bool> {
        let verified = match self.transfer.checksum_type {
            0 => modular_checksum(self.file()) == self.transfer.checksum,
            15 => true,
            _ => {
                if self.fault(11) == ABANDON {
                    return None;
                }
                true
            }
        };
        self.transfer.complete |= verified;
        Some(verified)
    }

    /// Declares a fault: reports it, does what its handler says, and tells which that is.
    fn fault(&mut self, condition: u8) -> u8 {
        let handler = self.config.handler(condition);
        self.indications.push(Indication::Fault {
            handler,
            id: self.id,
            condition,
            progress: self.transfer.progress,
        });
        match handler {
            CANCEL => {
                self.transfer.condition = condition;
                self.transfer.cancelled = true;
                self.step = Step::Completion;
            }
            ABANDON => self.go_idle(),
            _ => {}
        }
        handler
    }

    /// The steps after a PDU was taken, or without one.
    fn busy(&mut self, timer: bool) {
        if self.step == Step::Waiting && timer {
            self.timer_expired();
        }
        if self.step == Step::Completion {
            self.complete_transfer();
        }
    }

    /// The timer ran out while waiting.
    fn timer_expired(&mut self) {
        match self.verify() {
            None => {}
            Some(true) => self.step = Step::Completion,
            Some(false) if u64::from(self.transfer.count) + 1 >= u64::from(self.transfer.limit) => {
                self.fault(10);
            }
            Some(false) => self.transfer.count += 1,
        }
    }

    /// The end of a transfer: the file is kept or discarded, the user is told, and the sender where it asked for that.
    fn complete_transfer(&mut self) {
        let mut status = 2;
        if self.transfer.cancelled && !self.transfer.complete && self.transfer.discard {
            self.file_len = 0;
            status = 0;
        }
        let delivery = u8::from(!self.transfer.complete);
        self.indications.push(Indication::Finished {
            id: self.id,
            condition: self.transfer.condition,
            delivery,
            status,
        });
        if self.transfer.closure {
            self.send_finished(delivery, status);
        }
        self.go_idle();
    }

    /// Writes the Finished PDU.
    fn send_finished(&mut self, delivery: u8, status: u8) {
        let with_location = self.transfer.condition != 0 && self.transfer.condition != 11;
        let local_width = self.config.local_width;
        let field_len = if with_location { 4 + local_width } else { 2 };
        self.put(&[0x2c | u8::from(self.transfer.large), 0, field_len as u8]);
        self.put(&[((self.transfer.id_width - 1) << 4 | (self.transfer.seq_width - 1)) as u8]);
        self.put_number(self.id.source, self.transfer.id_width);
        self.put_number(self.id.seq, self.transfer.seq_width);
        self.put_number(self.config.local_id, self.transfer.id_width);
        self.put(&[5, self.transfer.condition << 4 | delivery << 2 | status]);
        if with_location {
            self.put(&[6, local_width as u8]);
            self.put_number(self.config.local_id, local_width);
        }
    }

    /// Puts bytes behind those that are to be sent.
    fn put(&mut self, bytes: &[u8]) {
        self.out[self.sent..self.sent + bytes.len()].copy_from_slice(bytes);
        self.sent += bytes.len();
    }

    /// Puts a big-endian number of so many bytes.
    fn put_number(&mut self, value: u64, width: usize) {
        self.put(&value.to_be_bytes()[8 - width..]);
    }

    /// Forgets the transfer, all but its id and its file.
    fn go_idle(&mut self) {
        self.step = Step::Idle;
        self.source_name.clear();
        self.dest_name.clear();
        self.transfer = Transfer::default();
    }
}
