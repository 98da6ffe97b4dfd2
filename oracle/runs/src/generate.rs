//! Recordings from a seed. Most run transfers to their end; noise and damage come beside them.

use crate::random::Random;
use crate::recording::{fits, Config, Record, Recording, Remote};
use crate::trace::Id;

/// No recording is longer than this.
pub const MAX_LEN: usize = 200_000;

/// Names that are UTF-8 at the edges of its grammar.
const GOOD_NAMES: [&[u8]; 6] = [
    b"\xc2\x80\xdf\xbf",
    b"\xe0\xa0\x80\xed\x9f\xbf",
    b"\xee\x80\x80\xef\xbf\xbf",
    b"\xf0\x90\x80\x80\xf4\x8f\xbf\xbf",
    b"\0",
    b"dir/file.bin",
];

/// Names that are not: lone, cut off, overlong, surrogate, above U+10FFFF.
const BAD_NAMES: [&[u8]; 14] = [
    b"\x80",
    b"a\xbf",
    b"\xc2",
    b"\xc2a",
    b"\xc0\xaf",
    b"\xc1\xbf",
    b"\xe0\x9f\xbf",
    b"\xe1\x80",
    b"\xed\xa0\x80",
    b"\xf0\x8f\xbf\xbf",
    b"\xf1\x80\x80",
    b"\xf4\x90\x80\x80",
    b"\xf5\x80\x80\x80",
    b"a\xff",
];

/// Numbers around the limits of the widths.
const EDGES: [u64; 10] = [
    0,
    0xff,
    0x100,
    0xffff,
    0x1_0000,
    0xffff_ffff,
    0x1_0000_0000,
    0x7fff_ffff_ffff_ffff,
    0x8000_0000_0000_0000,
    0xffff_ffff_ffff_ffff,
];

/// A transfer that a sender makes, and what the receiver's file should be by now.
#[derive(Clone)]
struct Transfer {
    id: Id,
    dest: u64,
    checksum_type: u8,
    file: Vec<u8>,
    progress: u64,
}

/// What of a Metadata is not as it should be.
#[derive(Clone, Copy, PartialEq, Eq)]
enum Flaw {
    None,
    Acknowledged,
    EmptySource,
    EmptyDest,
    EmptyBoth,
    BadName,
    Message,
    BadNameAndMessage,
    BadOption,
    UnknownSource,
    Cut,
}

const FLAWS: [Flaw; 10] = [
    Flaw::Acknowledged,
    Flaw::EmptySource,
    Flaw::EmptyDest,
    Flaw::EmptyBoth,
    Flaw::BadName,
    Flaw::Message,
    Flaw::BadNameAndMessage,
    Flaw::BadOption,
    Flaw::UnknownSource,
    Flaw::Cut,
];

/// Makes one recording.
struct Generator {
    random: Random,
    config: Config,
    records: Vec<Record>,
    /// Out of a hundred: how often something else comes before a PDU.
    noise: u64,
    /// Out of a hundred: how often a PDU is damaged itself.
    damage: u64,
}

/// The recording of a seed and an index.
pub fn recording(seed: u64, index: u64) -> Vec<u8> {
    let mut random = Random::new(seed, index);
    let config = config(&mut random);
    let noise = random.pick(&[0, 0, 5, 10, 30]);
    let damage = random.pick(&[0, 0, 0, 1, 4]);
    let mut generator = Generator {
        random,
        config,
        records: Vec::new(),
        noise,
        damage,
    };
    generator.fill();
    generator.finish()
}

/// A header that 21 lets pass.
fn config(random: &mut Random) -> Config {
    let local_width = random.pick(&[1, 1, 2, 4, 8]);
    let local_id = Some(random.pick(&EDGES))
        .filter(|id| fits(*id, local_width) && random.percent(30))
        .unwrap_or(2);
    let store_len = match random.weighted(&[30, 150, 500, 300, 19, 1]) {
        0 => 0,
        1 => random.between(1, 8),
        2 => random.between(9, 40),
        3 => random.between(41, 200),
        4 => random.between(201, 2000),
        _ => 65_535,
    } as u16;
    Config {
        local_width,
        local_id,
        store_len,
        handlers: handlers(random),
        segment_indication: random.percent(50),
        eof_indication: random.percent(50),
        remotes: remotes(random),
    }
}

/// Ten handlers: the defaults, or any, with those of the faults that end a wait early often ignored.
fn handlers(random: &mut Random) -> [u8; 10] {
    let mut handlers = [1, 1, 1, 1, 3, 1, 1, 1, 1, 3];
    if random.percent(75) {
        handlers
            .iter_mut()
            .for_each(|handler| *handler = random.pick(&[1, 3, 4]));
        if random.percent(50) {
            handlers[4] = 3;
        }
    }
    handlers
}

/// Entries with different ids.
fn remotes(random: &mut Random) -> Vec<Remote> {
    let count = match random.weighted(&[2, 50, 30, 18]) {
        0 => 0,
        1 => 1,
        2 => random.between(2, 3),
        _ => random.between(4, 8),
    };
    let mut remotes: Vec<Remote> = Vec::new();
    while (remotes.len() as u64) < count {
        let id = match random.weighted(&[60, 20, 20]) {
            0 => random.between(1, 9),
            1 => random.pick(&EDGES),
            _ => random.next() >> random.pick(&[0, 32, 48, 56]),
        };
        let limit = match random.weighted(&[96, 2, 2]) {
            0 => random.between(0, 5) as u32,
            1 => u32::MAX,
            _ => random.next() as u32,
        };
        let discard = random.percent(50);
        if remotes.iter().all(|remote| remote.id != id) {
            remotes.push(Remote { id, limit, discard });
        }
    }
    remotes
}

/// The sum of four-byte words; the last one is padded with zeros at its end, or in front.
fn sum(file: &[u8], front: bool) -> u32 {
    file.chunks(4).fold(0u32, |sum, bytes| {
        let mut word = [0; 4];
        let at = if front { 4 - bytes.len() } else { 0 };
        word[at..at + bytes.len()].copy_from_slice(bytes);
        sum.wrapping_add(u32::from_be_bytes(word))
    })
}

impl Transfer {
    /// What the file becomes by a segment that fits; an empty one changes nothing, at any offset.
    fn write(&mut self, offset: usize, bytes: &[u8]) {
        if !bytes.is_empty() {
            self.file
                .resize(self.file.len().max(offset + bytes.len()), 0);
            self.file[offset..offset + bytes.len()].copy_from_slice(bytes);
        }
        self.progress += bytes.len() as u64;
    }
}

impl Generator {
    /// The length of the store, as a number to reckon with.
    fn store_len(&self) -> u64 {
        self.config.store_len.into()
    }

    /// One to four transfers, seldom many, sometimes two at once.
    fn fill(&mut self) {
        let many = self.random.below(5000) == 0;
        let transfers = if many {
            150
        } else {
            self.random.pick(&[1, 1, 2, 2, 3, 4])
        };
        for _ in 0..transfers {
            let transfer = self.transfer();
            if self.random.percent(5) {
                self.twins(transfer);
            } else {
                self.run(transfer);
            }
        }
    }

    /// The recording's bytes, now and then broken at its header or end.
    fn finish(mut self) -> Vec<u8> {
        let recording = Recording {
            config: self.config.clone(),
            records: std::mem::take(&mut self.records),
            bad: None,
        };
        let mut bytes = recording.write();
        bytes.truncate(MAX_LEN);
        match self.random.below(100) {
            0 | 1 => self.break_header(&mut bytes),
            2 => bytes.truncate(self.random.below(bytes.len() as u64 + 1) as usize),
            3 => bytes.extend([self.random.pick(&[2, 7, 255]), self.random.pick(&[0, 1])]),
            4 => bytes.extend([self.random.pick(&[0, 1]), self.random.pick(&[2, 3, 255])]),
            5 => bytes.push(self.random.pick(&[0, 1, 2])),
            6 => bytes.extend(
                [1, 0, 0, self.random.pick(&[1, 9]), 0][..self.random.between(3, 4) as usize]
                    .iter(),
            ),
            _ => {}
        }
        bytes.truncate(MAX_LEN);
        bytes
    }

    /// A header that prints `bad 0`, most of the time.
    fn break_header(&mut self, bytes: &mut Vec<u8>) {
        let entries = usize::from(bytes[27]);
        match self.random.below(10) {
            0 => bytes[self.random.below(3) as usize] ^= 0x20,
            1 => bytes[3 + self.random.below(2) as usize] ^= 1 << self.random.below(8),
            2 => bytes[5] = self.random.pick(&[0, 3, 5, 6, 7, 9, 255]),
            3 => {
                bytes[5] = self.random.pick(&[1, 2, 4]);
                bytes[6] = 1;
            }
            4 => bytes[16 + self.random.below(10) as usize] = self.random.pick(&[0, 2, 5, 255]),
            5 => bytes[26] = self.random.pick(&[4, 5, 128, 255]),
            6 => bytes[27] = self.random.pick(&[9, 10, 255]),
            7 if entries > 0 => bytes[28 + 13 * entries - 1] = self.random.pick(&[2, 3, 255]),
            8 if entries > 1 => {
                let first = bytes[28..36].to_vec();
                bytes[28 + 13 * (entries - 1)..][..8].copy_from_slice(&first);
            }
            _ => bytes.truncate(self.random.below(28 + 13 * entries as u64) as usize),
        }
    }

    /// A transfer from an entity that is mostly known.
    fn transfer(&mut self) -> Transfer {
        let known: Vec<u64> = self.config.remotes.iter().map(|remote| remote.id).collect();
        let source = if known.is_empty() || self.random.percent(2) {
            self.random.next() >> 40
        } else {
            self.random.pick(&known)
        };
        let seq = match self.random.weighted(&[60, 20, 20]) {
            0 => self.random.between(0, 9),
            1 => self.random.pick(&EDGES),
            _ => self.random.next() >> self.random.pick(&[0, 32, 48, 56]),
        };
        Transfer {
            id: Id { source, seq },
            dest: self.config.local_id,
            checksum_type: match self.random.weighted(&[70, 10, 6, 14]) {
                0 => 0,
                1 => 15,
                2 => 3,
                _ => self.random.below(16) as u8,
            },
            file: Vec::new(),
            progress: 0,
        }
    }

    // PDU bytes

    /// A directive PDU with this mode bit.
    fn pdu(&mut self, mode: u8, transfer: &Transfer, large: bool, field: Vec<u8>) -> Vec<u8> {
        self.pdu_of(mode, 0, transfer, large, field)
    }

    /// A PDU with widths that its numbers fit; `type_and_mode` are bits of byte 0, `flag` is one of byte 3.
    fn pdu_of(
        &mut self,
        type_and_mode: u8,
        flag: u8,
        transfer: &Transfer,
        large: bool,
        field: Vec<u8>,
    ) -> Vec<u8> {
        let (id, dest) = (transfer.id, transfer.dest);
        let id_width = self.width(id.source.max(dest));
        let seq_width = self.width(id.seq);
        let stray = |random: &mut Random, bit: u8| if random.percent(8) { bit } else { 0 };
        let byte_0 = 0x20 | type_and_mode | u8::from(large) | stray(&mut self.random, 8);
        let byte_3 = stray(&mut self.random, 0x80) | (id_width - 1) << 4 | flag | (seq_width - 1);
        let mut pdu = vec![byte_0];
        pdu.extend((field.len() as u16).to_be_bytes());
        pdu.push(byte_3);
        for (value, width) in [(id.source, id_width), (id.seq, seq_width), (dest, id_width)] {
            pdu.extend(&value.to_be_bytes()[8 - usize::from(width)..]);
        }
        pdu.extend(field);
        pdu
    }

    /// A width that a value fits, the smallest one half of the time.
    fn width(&mut self, value: u64) -> u8 {
        let mut widths = [1, 2, 4, 8]
            .into_iter()
            .filter(|width| fits(value, *width))
            .collect::<Vec<u8>>();
        if self.random.percent(50) {
            widths.truncate(1);
        }
        self.random.pick(&widths)
    }

    /// The mode bit of a PDU that is not looked at.
    fn mode(&mut self) -> u8 {
        if self.random.percent(15) {
            0
        } else {
            4
        }
    }

    /// Whether a PDU has the large file flag: it must for a size above 32 bits.
    fn large(&mut self, size: u64) -> bool {
        !fits(size, 4) || self.random.percent(25)
    }

    /// A size or an offset, in the width of the large file flag.
    fn size_bytes(size: u64, large: bool) -> Vec<u8> {
        size.to_be_bytes()[if large { 0 } else { 4 }..].to_vec()
    }

    /// A Metadata PDU with one flaw, or none.
    fn metadata(&mut self, transfer: &Transfer, flaw: Flaw) -> Vec<u8> {
        let size = match self.random.weighted(&[80, 20]) {
            0 => self.random.below(100),
            _ => self.random.pick(&EDGES),
        };
        let large = self.large(size);
        let closure = self.random.pick(&[0x40, 0x40, 0]);
        let spare = if self.random.percent(8) { 0xb0 } else { 0 };
        let mut field = vec![7, closure | spare | transfer.checksum_type];
        field.extend(Self::size_bytes(size, large));
        let bad = self.random.pick(&[1, 2, 3]);
        let has_bad = flaw == Flaw::BadName || flaw == Flaw::BadNameAndMessage;
        for (place, empty) in [(1, Flaw::EmptySource), (2, Flaw::EmptyDest)] {
            let name = match flaw {
                _ if flaw == empty || flaw == Flaw::EmptyBoth => Vec::new(),
                _ => self.name(has_bad && bad & place != 0),
            };
            field.push(name.len() as u8);
            field.extend(name);
        }
        field.extend(self.options(flaw));
        if flaw == Flaw::Cut {
            field.truncate(self.random.between(1, field.len() as u64 - 1) as usize);
        }
        let mut transfer = transfer.clone();
        if flaw == Flaw::UnknownSource {
            transfer.id.source = self.random.next() >> 44;
        }
        let mode = if flaw == Flaw::Acknowledged { 0 } else { 4 };
        self.pdu(mode, &transfer, large, field)
    }

    /// A name of 1 to 255 bytes.
    fn name(&mut self, bad: bool) -> Vec<u8> {
        let len = self.random.pick(&[1, 1, 2, 5, 12, 254, 255]);
        let mut name = vec![b'n'; len];
        let special = if bad {
            self.random.pick(&BAD_NAMES)
        } else {
            self.random.pick(&GOOD_NAMES)
        };
        if bad || self.random.percent(30) {
            let at = self.random.below(len as u64 + 1) as usize;
            name.truncate(255 - special.len());
            name.splice(
                at.min(name.len())..at.min(name.len()),
                special.iter().copied(),
            );
        }
        name
    }

    /// Options as the flaw asks for, with harmless ones before and after.
    fn options(&mut self, flaw: Flaw) -> Vec<u8> {
        let mut options = Vec::new();
        let some = self.random.percent(25);
        for _ in 0..if some { self.random.between(1, 3) } else { 0 } {
            let kind = self.random.pick(&[0, 1, 3, 4, 5, 6, 7, 255]);
            self.option(&mut options, kind);
        }
        if flaw == Flaw::Message || flaw == Flaw::BadNameAndMessage {
            self.option(&mut options, 2);
            if self.random.percent(30) {
                self.option(&mut options, 5);
            }
        }
        if flaw == Flaw::BadOption {
            let len = self.random.between(1, 9) as usize;
            let kind = self.random.pick(&[0, 2, 5]);
            options.extend(&[kind, 9, 1, 2, 3, 4, 5, 6, 7, 8][..len]);
        }
        options
    }

    /// Adds a whole option.
    fn option(&mut self, options: &mut Vec<u8>, kind: u8) {
        let len = self.random.pick(&[0, 0, 1, 3, 6, 255]);
        options.extend([kind, len]);
        options.extend(self.random.bytes(len.into()));
    }

    /// A file data PDU, now and then with segment metadata.
    fn segment(&mut self, transfer: &Transfer, offset: u64, bytes: &[u8]) -> Vec<u8> {
        let large = self.large(offset);
        let mut field = Vec::new();
        let segment_metadata = self.random.percent(12);
        if segment_metadata {
            let count = self.random.pick(&[0, 1, 5, 63]);
            field.push(count | self.random.pick(&[0, 0x40, 0xc0]));
            field.extend(self.random.bytes(count.into()));
        }
        field.extend(Self::size_bytes(offset, large));
        field.extend(bytes);
        let flag = if segment_metadata { 8 } else { 0 };
        let mode = self.mode();
        self.pdu_of(0x10 | mode, flag, transfer, large, field)
    }

    /// An EOF PDU, seldom of a wrong length.
    fn eof(&mut self, transfer: &Transfer, condition: u8, checksum: u32, size: u64) -> Vec<u8> {
        let large = self.large(size);
        let spare = if self.random.percent(8) { 15 } else { 0 };
        let mut field = vec![4, condition << 4 | spare];
        field.extend(checksum.to_be_bytes());
        field.extend(Self::size_bytes(size, large));
        if condition != 0 && self.random.percent(60) {
            field.extend([6, 1, 2]);
        }
        if self.random.percent(2) {
            field.truncate(self.random.between(1, field.len() as u64) as usize);
        } else if self.random.percent(1) {
            field.push(0);
        }
        let mode = self.mode();
        self.pdu(mode, transfer, large, field)
    }

    /// Any directive with a body of some bytes.
    fn directive(&mut self, transfer: &Transfer) -> Vec<u8> {
        let code = match self.random.weighted(&[60, 25, 15]) {
            0 => self.random.pick(&[5, 6, 6, 6, 8, 9, 9, 12]),
            1 => self.random.below(16) as u8,
            _ => self.random.next() as u8,
        };
        let mut field = vec![code];
        let acked = self
            .random
            .pick(&[0x40, 0x41, 0x50, 0x51, 0x04, 0x05, 0x00, 0x60, 0x70, 0xff]);
        let len = self.random.pick(&[0, 1, 2, 2, 2, 6]);
        field.extend(&[acked, 0x00, 1, 2, 3, 4][..len]);
        if self.random.percent(3) {
            field.clear();
        }
        let mode = self.mode();
        let mut pdu = self.pdu(mode, transfer, false, field);
        if self.random.percent(20) {
            pdu.extend([self.random.pick(&[4, 5, 0x40, 0x50]), 9]);
        }
        pdu
    }

    // Records

    /// A record with a timer flag that is set so many times in a hundred.
    fn push(&mut self, pdu: Option<Vec<u8>>, flagged: u64) {
        let timer = self.random.percent(flagged);
        self.records.push(Record { timer, pdu });
    }

    /// A PDU, after noise, and now and then damaged.
    fn send(&mut self, transfer: &Transfer, pdu: Vec<u8>, flagged: u64) {
        while self.random.percent(self.noise) {
            self.stray(transfer, &pdu);
        }
        let mut sent = pdu;
        if self.random.percent(self.damage) {
            sent = self.damaged(&sent);
        }
        self.push(Some(sent), flagged);
    }

    /// Something that does not belong here.
    fn stray(&mut self, transfer: &Transfer, pdu: &[u8]) {
        let mut foreign = transfer.clone();
        match self.random.below(4) {
            0 => foreign.id.seq ^= 1,
            1 => foreign.id.source ^= 1,
            2 => foreign.dest ^= 1,
            _ => foreign.id.seq = foreign.id.seq.wrapping_add(256),
        }
        let edge = self.random.pick(&EDGES);
        let condition = self.random.between(1, 15) as u8;
        let flaw = self.random.pick(&FLAWS);
        let stray = match self
            .random
            .weighted(&[8, 12, 6, 6, 16, 16, 4, 4, 4, 12, 4, 4])
        {
            0 => None,
            1 => Some(self.segment(&foreign, 0, &[9, 9])),
            2 => Some(self.eof(&foreign, 0, 0, 0)),
            3 => Some(self.metadata(&foreign, Flaw::None)),
            4 => Some(self.directive(transfer)),
            5 => Some(self.damaged(pdu)),
            6 => Some(self.eof(transfer, condition, 0, 0)),
            7 => Some(self.segment(transfer, edge, &[])),
            8 => {
                let junk = self.random.pick(&[0, 1, 3, 4, 9, 30]);
                Some(self.random.bytes(junk))
            }
            9 => Some(self.metadata(transfer, flaw)),
            10 => Some(self.directive(&foreign)),
            _ => Some(self.metadata(&foreign, flaw)),
        };
        self.push(stray, 30);
    }

    /// A copy of a PDU with one thing wrong, or with bytes after its end.
    fn damaged(&mut self, pdu: &[u8]) -> Vec<u8> {
        let mut damaged = pdu.to_vec();
        if damaged.is_empty() {
            return damaged;
        }
        let at = self.random.below(damaged.len() as u64) as usize;
        match self.random.below(12) {
            0 | 1 => damaged[at] ^= 1 << self.random.below(8),
            2 => damaged[at] = self.random.next() as u8,
            3 => damaged.truncate(at),
            4 => damaged.extend([4, 5, 6]),
            5 => damaged[2 % pdu.len()] = damaged[2 % pdu.len()].wrapping_add(1),
            6 => damaged[2 % pdu.len()] = damaged[2 % pdu.len()].wrapping_sub(1),
            7 => damaged[1 % pdu.len()] ^= 1 << self.random.below(8),
            8 => damaged[0] ^= self.random.pick(&[0x80, 0x40, 0x20]),
            9 => damaged[0] |= 2,
            10 => {
                damaged[3 % pdu.len()] ^= self.random.pick(&[0x10, 0x20, 0x30, 0x40, 1, 2, 3, 4, 8])
            }
            _ => {
                damaged.remove(at);
            }
        }
        damaged
    }

    // Transfers

    /// Segments that cover so many bytes, in order, with an end that may be left out.
    fn split(&mut self, len: u64) -> Vec<(u64, Vec<u8>)> {
        let mut segments = Vec::new();
        let largest = self.random.pick(&[1, 4, 8, 8, 64, 1024]).max(len / 12);
        let mut at = 0;
        while at < len {
            let n = self.random.between(1, largest.min(len - at));
            segments.push((at, self.random.bytes(n as usize)));
            at += n;
        }
        segments
    }

    /// Repeats, overlaps, swaps and takes out segments.
    fn stir(&mut self, segments: &mut Vec<(u64, Vec<u8>)>) {
        for _ in 0..self.random.pick(&[0, 0, 1, 2, 3]) {
            if segments.is_empty() {
                return;
            }
            let from = self.random.below(segments.len() as u64) as usize;
            let to = self.random.below(segments.len() as u64) as usize;
            match self.random.below(5) {
                0 => segments.swap(from, to),
                1 => segments.insert(to, segments[from].clone()),
                2 => {
                    segments.remove(from);
                }
                3 => {
                    let (offset, bytes) = segments[from].clone();
                    let moved = offset.saturating_sub(self.random.below(4));
                    let bytes = self.random.bytes(bytes.len());
                    segments.insert(to, (moved, bytes));
                }
                _ => segments.insert(to, (self.random.below(self.store_len() + 9), Vec::new())),
            }
        }
    }

    /// Sends a segment that fits the store, or does not.
    fn send_segment(&mut self, transfer: &mut Transfer, offset: u64, bytes: &[u8], flagged: u64) {
        let pdu = self.segment(transfer, offset, bytes);
        self.send(&transfer.clone(), pdu, flagged);
        if bytes.is_empty() || offset + bytes.len() as u64 <= self.store_len() {
            transfer.write(offset as usize, bytes);
        }
    }

    /// A segment that just does not fit, or is far away.
    fn send_beyond(&mut self, transfer: &mut Transfer) {
        let n = self.random.between(1, 6);
        let offset = match self.random.below(6) {
            0 => self.random.pick(&EDGES).max(self.store_len()),
            1 => u64::MAX - n + self.random.between(0, 1),
            _ => (self.store_len() + 1).saturating_sub(n),
        };
        let len = if offset
            .checked_add(n)
            .map_or(false, |end| end <= self.store_len())
        {
            self.store_len() + 1 - offset
        } else {
            n
        };
        let bytes = self.random.bytes(len as usize);
        let pdu = self.segment(transfer, offset, &bytes);
        self.send(&transfer.clone(), pdu.clone(), 40);
        if self.random.percent(20) {
            self.stray(transfer, &pdu);
        }
        for _ in 0..self.random.pick(&[0, 1, 1, 2]) {
            self.push(None, 40);
        }
    }

    /// The length of the file that a sender has.
    fn file_len(&mut self) -> u64 {
        let store_len = self.store_len();
        match self.random.weighted(&[8, 60, 12, 5]) {
            0 => 0,
            1 => self.random.between(0, store_len.min(60)),
            2 => store_len,
            _ => self.random.between(0, store_len),
        }
    }

    /// Metadata, segments, EOF, and what comes late.
    fn run(&mut self, mut transfer: Transfer) {
        if self.random.percent(12) {
            let flaw = self.random.pick(&FLAWS);
            let pdu = self.metadata(&transfer, flaw);
            self.push(Some(pdu), 20);
        }
        self.open(&transfer);
        let len = self.file_len();
        let mut segments = self.split(len);
        self.stir(&mut segments);
        let late_from = match self.random.below(2) {
            0 => self.random.below(segments.len() as u64 + 1) as usize,
            _ => segments.len(),
        };
        let late = segments.split_off(late_from);
        for (offset, bytes) in &segments {
            self.send_segment(&mut transfer, *offset, bytes, 20);
        }
        if self.random.percent(10) {
            self.send_beyond(&mut transfer);
        }
        if self.random.percent(3) {
            let edge = self.random.pick(&EDGES);
            let pdu = self.segment(&transfer, edge, &[]);
            self.push(Some(pdu), 20);
        }
        let mut whole = transfer.clone();
        late.iter()
            .for_each(|(offset, bytes)| whole.write(*offset as usize, bytes));
        self.close(&transfer, &whole);
        self.wait(&mut transfer, late);
    }

    /// Sends a good Metadata.
    fn open(&mut self, transfer: &Transfer) {
        let pdu = self.metadata(transfer, Flaw::None);
        self.send(transfer, pdu, 20);
    }

    /// An EOF, for the file with what comes late or without it, or wrong.
    fn close(&mut self, now: &Transfer, whole: &Transfer) {
        let checksum = match self.random.weighted(&[10, 60, 5, 25]) {
            0 => sum(&now.file, false),
            1 => sum(&whole.file, false),
            2 => sum(&whole.file, true),
            _ => sum(&whole.file, false).wrapping_add(self.random.pick(&[1, 0x100, 0xffff_ffff])),
        };
        let size = match self.random.weighted(&[60, 10, 10, 8, 4]) {
            0 => whole.progress.max(now.progress),
            1 => whole.file.len() as u64,
            2 => now.progress.saturating_sub(self.random.between(1, 3)),
            3 => now.progress + self.random.between(1, 3),
            _ => self.random.pick(&EDGES),
        };
        let condition = if self.random.percent(2) {
            self.random.between(1, 15) as u8
        } else {
            0
        };
        let pdu = self.eof(now, condition, checksum, size);
        self.send(now, pdu, 30);
    }

    /// Late segments and polls until the limit is met, most of the time.
    fn wait(&mut self, transfer: &mut Transfer, late: Vec<(u64, Vec<u8>)>) {
        for (offset, bytes) in late {
            if self.random.percent(25) {
                self.push(None, 50);
            }
            self.send_segment(transfer, offset, &bytes, 30);
        }
        if self.random.percent(25) {
            self.send_beyond(transfer);
        }
        if self.random.percent(6) {
            let pdu = self.eof(transfer, 0, 0, 0);
            self.send(&transfer.clone(), pdu, 30);
        }
        for _ in 0..self.random.pick(&[0, 1, 2, 3, 4, 6]) {
            if self.random.percent(10) {
                self.send_segment(transfer, 0, &[], 60);
            }
            if self.random.percent(5) {
                let pdu = self.segment(transfer, 0, &[]);
                self.stray(transfer, &pdu);
            }
            self.push(None, 75);
        }
    }

    /// Two transfers whose PDUs alternate; the second is foreign to the first.
    fn twins(&mut self, mut first: Transfer) {
        let mut second = first.clone();
        second.id.seq ^= 1;
        self.open(&first);
        self.open(&second);
        let len = self.file_len().min(40);
        for (offset, bytes) in self.split(len) {
            self.send_segment(&mut first, offset, &bytes, 20);
            let other = self.random.bytes(bytes.len());
            self.send_segment(&mut second, offset, &other, 20);
        }
        self.close(&first.clone(), &first);
        self.close(&second.clone(), &second);
        self.wait(&mut first, Vec::new());
    }
}
