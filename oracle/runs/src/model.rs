//! Document 01's rules as a plain program, apart from the original and from its stand-ins, with places for faults.

use crate::recording::{number, Config};
use crate::trace::{Call, Id, Indication, Receiver};

/// What is planted, by number; 0 plants nothing.
pub const FAULTS: [&str; 11] = [
    "none",
    "start: progress is not set to 0",
    "segment: the bytes between the old length and the offset are not set to 0",
    "segment: progress becomes the end of the segment where that is larger, in place of growing by n",
    "EOF: fault 6 also where progress is below the EOF's size",
    "verify: the last word is padded at the front",
    "wait: the count starts again when data come",
    "19: the busy steps run after the refusal",
    "completion: a cancelled and incomplete file is kept where the entry says discard",
    "Finished PDU: the fault location has the entity width of the Metadata",
    "configuration: fault 10 has the handler of fault 8",
];

const START_PROGRESS: u8 = 1;
const NO_ZERO_FILL: u8 = 2;
const PROGRESS_BY_END: u8 = 3;
const SIZE_BOTH_WAYS: u8 = 4;
const PADDED_IN_FRONT: u8 = 5;
const COUNT_RESTARTS: u8 = 6;
const BUSY_AFTER_19: u8 = 7;
const NO_DISCARD: u8 = 8;
const LOCATION_WIDTH: u8 = 9;
const WRONG_HANDLER: u8 = 10;

const CANCEL: u8 = 1;
const ABANDON: u8 = 4;

#[derive(Clone, Copy, PartialEq, Eq)]
enum Step {
    Idle,
    Receiving,
    Waiting,
    Completion,
}

/// What a PDU's header says, and where its data field stands.
struct Header {
    file_data: bool,
    unacknowledged: bool,
    large: bool,
    segment_metadata: bool,
    id_width: u8,
    seq_width: u8,
    id: Id,
    dest: u64,
    field: std::ops::Range<usize>,
}

/// A Metadata's fields that are kept.
struct Metadata {
    closure: bool,
    checksum_type: u8,
    size: u64,
}

/// A receiver after document 01.
pub struct Model<'a> {
    config: &'a Config,
    fault: u8,
    store: Vec<u8>,
    len: usize,
    step: Step,
    id: Id,
    dest: u64,
    id_width: u8,
    seq_width: u8,
    large: bool,
    closure: bool,
    checksum_type: u8,
    checksum: u32,
    progress: u64,
    count: u32,
    condition: u8,
    complete: bool,
    retained: bool,
    cancelled: bool,
}

/// A big-endian number's last bytes.
fn big_endian(value: u64, width: u8) -> Vec<u8> {
    value.to_be_bytes()[8 - usize::from(width)..].to_vec()
}

/// Refusals 3 to 6.
fn read_header(pdu: &[u8]) -> Result<Header, u8> {
    if pdu.len() < 4 {
        return Err(3);
    }
    if pdu[0] >> 5 != 1 {
        return Err(4);
    }
    let id_width = (pdu[3] >> 4 & 7) + 1;
    let seq_width = (pdu[3] & 7) + 1;
    if [id_width, seq_width]
        .iter()
        .any(|width| ![1, 2, 4, 8].contains(width))
    {
        return Err(5);
    }
    if pdu[0] & 2 != 0 {
        return Err(6);
    }
    let seq_at = 4 + usize::from(id_width);
    let dest_at = seq_at + usize::from(seq_width);
    let field_at = dest_at + usize::from(id_width);
    let field = field_at..field_at + number(&pdu[1..3]) as usize;
    if pdu.len() < field.end {
        return Err(3);
    }
    let id = Id {
        source: number(&pdu[4..seq_at]),
        seq: number(&pdu[seq_at..dest_at]),
    };
    Ok(Header {
        file_data: pdu[0] & 16 != 0,
        unacknowledged: pdu[0] & 4 != 0,
        large: pdu[0] & 1 != 0,
        segment_metadata: pdu[3] & 8 != 0,
        id_width,
        seq_width,
        id,
        dest: number(&pdu[dest_at..field_at]),
        field,
    })
}

/// Refusals 7, 8 and 10 by the directive.
fn route(field: &[u8]) -> Result<u8, u8> {
    match field.first() {
        Some(4) => Ok(4),
        Some(7) => Ok(7),
        Some(5 | 8 | 12) => Err(8),
        Some(9) => Err(10),
        Some(6) => match field.get(1).map(|byte| byte >> 4) {
            Some(4) => Err(8),
            Some(5) => Err(10),
            _ => Err(7),
        },
        _ => Err(7),
    }
}

/// The next bytes of a field, or refusal 14.
fn take<'f>(field: &mut &'f [u8], len: usize) -> Result<&'f [u8], u8> {
    let taken = field.get(..len).ok_or(14)?;
    *field = &field[len..];
    Ok(taken)
}

/// A length byte and its bytes, or refusal 14.
fn take_counted<'f>(field: &mut &'f [u8]) -> Result<&'f [u8], u8> {
    let len = take(field, 1)?[0];
    take(field, len.into())
}

/// The width of sizes and offsets.
fn size_width(header: &Header) -> usize {
    if header.large {
        8
    } else {
        4
    }
}

impl<'a> Model<'a> {
    /// An idle receiver with one of the faults, or (0) none.
    pub fn new(config: &'a Config, fault: u8) -> Self {
        Self {
            config,
            fault,
            store: vec![0; config.store_len.into()],
            len: 0,
            step: Step::Idle,
            id: Id { source: 0, seq: 0 },
            dest: 0,
            id_width: 1,
            seq_width: 1,
            large: false,
            closure: false,
            checksum_type: 0,
            checksum: 0,
            progress: 0,
            count: 0,
            condition: 0,
            complete: false,
            retained: false,
            cancelled: false,
        }
    }

    /// Inserts a PDU. A refusal that is not 19 leaves everything as it was.
    fn insert(&mut self, pdu: &[u8], call: &mut Call) -> Result<(), u8> {
        let header = read_header(pdu)?;
        let field = &pdu[header.field.clone()];
        let directive = if header.file_data { 0 } else { route(field)? };
        if header.dest != self.config.local_id {
            return Err(9);
        }
        match directive {
            0 => self.file_data(&header, field, call),
            4 => self.eof(&header, field, call),
            _ => self.metadata(&header, field, call),
        }
    }

    /// A Metadata: 11, 10 (mode), 14, 15, 10 (both empty), 16, 17, 18, 10 (option).
    fn metadata(&mut self, header: &Header, mut field: &[u8], call: &mut Call) -> Result<(), u8> {
        if self.step != Step::Idle {
            return Err(11);
        }
        if !header.unacknowledged {
            return Err(10);
        }
        take(&mut field, 1)?;
        let flags = take(&mut field, 1)?[0];
        let size = number(take(&mut field, size_width(header))?);
        let source_name = take_counted(&mut field)?;
        let dest_name = take_counted(&mut field)?;
        let mut message = false;
        while !field.is_empty() {
            message |= take(&mut field, 1)?[0] == 2;
            take_counted(&mut field)?;
        }
        if self.config.remote(header.id.source).is_none() {
            return Err(15);
        }
        match (source_name.is_empty(), dest_name.is_empty()) {
            (true, true) => return Err(10),
            (true, false) => return Err(16),
            (false, true) => return Err(17),
            (false, false) => {}
        }
        if [source_name, dest_name]
            .iter()
            .any(|name| std::str::from_utf8(name).is_err())
        {
            return Err(18);
        }
        if message {
            return Err(10);
        }
        let metadata = Metadata {
            closure: flags & 0x40 != 0,
            checksum_type: flags & 15,
            size,
        };
        self.start(header, &metadata, call);
        Ok(())
    }

    /// The step start.
    fn start(&mut self, header: &Header, metadata: &Metadata, call: &mut Call) {
        self.step = Step::Receiving;
        self.id = header.id;
        self.dest = header.dest;
        self.id_width = header.id_width;
        self.seq_width = header.seq_width;
        self.large = header.large;
        self.closure = metadata.closure;
        self.checksum_type = metadata.checksum_type;
        self.len = 0;
        if self.fault != START_PROGRESS {
            self.progress = 0;
        }
        self.count = 0;
        self.condition = 0;
        self.complete = false;
        self.retained = true;
        self.cancelled = false;
        let size = metadata.size;
        call.indications
            .push(Indication::Metadata { id: self.id, size });
    }

    /// A segment: 12, 13, 14, 20, 19.
    fn file_data(&mut self, header: &Header, mut field: &[u8], call: &mut Call) -> Result<(), u8> {
        if self.step != Step::Receiving && self.step != Step::Waiting {
            return Err(12);
        }
        if header.id != self.id {
            return Err(13);
        }
        if header.segment_metadata {
            let count = take(&mut field, 1)?[0] & 0x3f;
            take(&mut field, count.into())?;
        }
        let offset = number(take(&mut field, size_width(header))?);
        let len = field.len() as u64;
        let progress = self.progress.checked_add(len).ok_or(20)?;
        if self.config.segment_indication {
            let id = self.id;
            call.indications
                .push(Indication::Segment { id, offset, len });
        }
        if len > 0 {
            let end = offset.checked_add(len);
            match end.filter(|end| *end <= self.store.len() as u64) {
                Some(end) => self.write(offset as usize, end as usize, field),
                None => {
                    self.declare(4, call);
                    return Err(19);
                }
            }
        }
        self.progress = progress;
        if self.fault == PROGRESS_BY_END {
            self.progress = (progress - len).max(offset.saturating_add(len));
        }
        if self.fault == COUNT_RESTARTS {
            self.count = 0;
        }
        call.segment_len = len;
        Ok(())
    }

    /// Puts a segment that fits at its offset.
    fn write(&mut self, offset: usize, end: usize, bytes: &[u8]) {
        if self.len < offset && self.fault != NO_ZERO_FILL {
            self.store[self.len..offset].fill(0);
        }
        self.store[offset..end].copy_from_slice(bytes);
        self.len = self.len.max(end);
    }

    /// An EOF: 12, 13, 14 (under 2 bytes), 10, 14 (length).
    fn eof(&mut self, header: &Header, field: &[u8], call: &mut Call) -> Result<(), u8> {
        if self.step != Step::Receiving {
            return Err(12);
        }
        if header.id != self.id {
            return Err(13);
        }
        if field.len() < 2 {
            return Err(14);
        }
        if field[1] >> 4 != 0 {
            return Err(10);
        }
        if field.len() != 6 + size_width(header) {
            return Err(14);
        }
        if self.config.eof_indication {
            call.indications.push(Indication::Eof { id: self.id });
        }
        self.checksum = number(&field[2..6]) as u32;
        self.end_of_file(number(&field[6..]), call);
        Ok(())
    }

    /// The EOF's size, then verification.
    fn end_of_file(&mut self, size: u64, call: &mut Call) {
        let short = self.fault == SIZE_BOTH_WAYS && self.progress < size;
        if (self.progress > size || short) && self.declare(6, call) != 3 {
            return;
        }
        match self.verify(call) {
            None => {}
            Some(true) => self.step = Step::Completion,
            Some(false) => {
                if self.declare(5, call) == 3 {
                    self.count = 0;
                    self.step = Step::Waiting;
                }
            }
        }
    }

    /// Whether the file is whole; nothing where fault 11 abandoned the transfer.
    fn verify(&mut self, call: &mut Call) -> Option<bool> {
        let verified = match self.checksum_type {
            0 => self.sum() == self.checksum,
            15 => true,
            _ => {
                if self.declare(11, call) == ABANDON {
                    return None;
                }
                true
            }
        };
        self.complete |= verified;
        Some(verified)
    }

    /// The modular checksum of the file.
    fn sum(&self) -> u32 {
        let words = self.store[..self.len].chunks(4);
        words.fold(0u32, |sum, bytes| {
            let mut word = [0; 4];
            let at = if self.fault == PADDED_IN_FRONT {
                4 - bytes.len()
            } else {
                0
            };
            word[at..at + bytes.len()].copy_from_slice(bytes);
            sum.wrapping_add(u32::from_be_bytes(word))
        })
    }

    /// Declares a fault and tells its handler.
    fn declare(&mut self, condition: u8, call: &mut Call) -> u8 {
        let looked_up = if self.fault == WRONG_HANDLER && condition == 10 {
            8
        } else {
            condition
        };
        let handler = self.config.handler(looked_up);
        let report = Indication::Fault {
            handler,
            id: self.id,
            condition,
            progress: self.progress,
        };
        call.indications.push(report);
        match handler {
            CANCEL => {
                self.condition = condition;
                self.cancelled = true;
                self.step = Step::Completion;
            }
            ABANDON => self.step = Step::Idle,
            _ => {}
        }
        handler
    }

    /// The busy steps: the wait, and completion.
    fn busy(&mut self, timer: bool, call: &mut Call) {
        if self.step == Step::Waiting && timer {
            self.expired(call);
        }
        if self.step == Step::Completion {
            self.completion(call);
        }
    }

    /// A timer that ran out while waiting.
    fn expired(&mut self, call: &mut Call) {
        if self.verify(call) == Some(true) {
            self.step = Step::Completion;
        } else if u64::from(self.count) + 1 >= u64::from(self.limit()) {
            self.declare(10, call);
        } else {
            self.count += 1;
        }
    }

    /// The check limit of the transfer's source.
    fn limit(&self) -> u32 {
        self.config
            .remote(self.id.source)
            .map_or(0, |remote| remote.limit)
    }

    /// Discards or keeps the file, reports, and goes idle.
    fn completion(&mut self, call: &mut Call) {
        let discard = self
            .config
            .remote(self.id.source)
            .map_or(false, |remote| remote.discard);
        if self.cancelled && !self.complete && discard && self.fault != NO_DISCARD {
            self.len = 0;
            self.retained = false;
        }
        let delivery = u8::from(!self.complete);
        let status = if self.retained { 2 } else { 0 };
        call.indications.push(Indication::Finished {
            id: self.id,
            condition: self.condition,
            delivery,
            status,
        });
        if self.closure {
            call.pdu = Some(self.finished_pdu(self.condition << 4 | delivery << 2 | status));
        }
        self.step = Step::Idle;
    }

    /// The Finished PDU with this second byte.
    fn finished_pdu(&self, flags: u8) -> Vec<u8> {
        let mut field = vec![5, flags];
        if self.condition != 0 && self.condition != 11 {
            let local = self.config.local_width;
            let width = if self.fault == LOCATION_WIDTH {
                self.id_width
            } else {
                local
            };
            field.extend([6, width]);
            field.extend(big_endian(self.config.local_id, width));
        }
        let mut pdu = vec![0x2c | u8::from(self.large), 0, field.len() as u8];
        pdu.push((self.id_width - 1) << 4 | (self.seq_width - 1));
        pdu.extend(big_endian(self.id.source, self.id_width));
        pdu.extend(big_endian(self.id.seq, self.seq_width));
        pdu.extend(big_endian(self.dest, self.id_width));
        pdu.extend(field);
        pdu
    }
}

impl Receiver for Model<'_> {
    fn call(&mut self, timer: bool, pdu: Option<&[u8]>) -> Call {
        let mut call = Call::default();
        let inserted = pdu.map_or(Ok(()), |pdu| self.insert(pdu, &mut call));
        call.answer = inserted.err().unwrap_or(0);
        if call.answer == 0 || call.answer == 19 && self.fault == BUSY_AFTER_19 {
            self.busy(timer, &mut call);
        }
        call.file = self.store[..self.len].to_vec();
        call
    }
}
