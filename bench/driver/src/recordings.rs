//! The recordings that are measured, put together from values; the same in every run.

/// Store of the largest length.
const STORE: u16 = 65535;
/// Handlers of the conditions 1 to 8, 10 and 11: the defaults of document 01.
const HANDLERS: [u8; 10] = [1, 1, 1, 1, 3, 1, 1, 1, 1, 3];
/// The place of condition 6 among them.
const SIZE_ERROR: usize = 5;
const IGNORE: u8 = 3;
/// The sequence number of a transfer, and one of another transfer.
const SEQ: u8 = 5;
const FOREIGN: u8 = 6;
/// The segments that larger files come in.
const SEGMENT: usize = 1000;
/// Where the segments that show the growth are written. Not at the store's first byte: there, on some processors, the C library's
/// copy of 2 KB and more is ten times slower, by the distance of the two buffers, which says nothing about a receiver.
const GROWTH_OFFSET: usize = 1000;

/// A recording in the making.
struct Recording(Vec<u8>);

/// A recording whose last `calls` records are repeated.
pub struct Lap {
    pub name: String,
    pub recording: Vec<u8>,
    pub calls: u8,
    /// Whether satrs answers otherwise than document 01.
    pub satrs_differs: bool,
}

/// A recording that is replayed whole.
pub struct Replay {
    pub name: &'static str,
    pub recording: Vec<u8>,
}

/// The bytes of a file.
fn contents(len: usize) -> Vec<u8> {
    (0..len as u32)
        .map(|i| (i.wrapping_mul(0x9e37_79b1) >> 24) as u8)
        .collect()
}

/// The modular checksum.
fn checksum(file: &[u8]) -> u32 {
    file.iter()
        .zip((0..4).cycle())
        .fold(0u32, |sum, (byte, place)| {
            sum.wrapping_add(u32::from(*byte) << (24 - 8 * place))
        })
}

/// A PDU from entity 1 to entity 2, ids and sequence numbers one byte wide.
fn pdu(kind: u8, seq: u8, field: &[u8]) -> Vec<u8> {
    let mut pdu = vec![0x24 | kind << 4];
    pdu.extend((field.len() as u16).to_be_bytes());
    pdu.extend([0, 1, seq, 2]);
    pdu.extend(field);
    pdu
}

impl Recording {
    /// A header: local entity 2, no indications but those that are always given, and so many remote entries, entity 1 the last.
    fn new(store: u16, handlers: [u8; 10], flags: u8, entries: u8) -> Self {
        let mut bytes = b"RXT\0\x01\x01".to_vec();
        bytes.extend(2u64.to_be_bytes());
        bytes.extend(store.to_be_bytes());
        bytes.extend(handlers);
        bytes.extend([flags, entries]);
        for left in (0..u64::from(entries)).rev() {
            bytes.extend((1 + 100 * left).to_be_bytes());
            bytes.extend(u32::MAX.to_be_bytes());
            bytes.push(0);
        }
        Self(bytes)
    }

    /// A record with a PDU.
    fn record(&mut self, pdu: &[u8]) {
        self.0.extend([1, 0]);
        self.0.extend((pdu.len() as u16).to_be_bytes());
        self.0.extend(pdu);
    }

    /// A poll with the timer flag.
    fn flagged_poll(&mut self) {
        self.0.extend([0, 1]);
    }

    /// A Metadata with closure, modular checksum and the names `a` and `b`.
    fn metadata(&mut self, seq: u8, size: usize) {
        let mut field = vec![7, 0x40];
        field.extend((size as u32).to_be_bytes());
        field.extend(b"\x01a\x01b");
        self.record(&pdu(0, seq, &field));
    }

    /// A segment.
    fn segment(&mut self, seq: u8, offset: usize, bytes: &[u8]) {
        let mut field = (offset as u32).to_be_bytes().to_vec();
        field.extend(bytes);
        self.record(&pdu(1, seq, &field));
    }

    /// All segments of a file.
    fn segments(&mut self, seq: u8, file: &[u8]) {
        for (i, bytes) in file.chunks(SEGMENT).enumerate() {
            self.segment(seq, i * SEGMENT, bytes);
        }
    }

    /// An EOF without error.
    fn eof(&mut self, seq: u8, checksum: u32, size: usize) {
        let mut field = vec![4, 0];
        field.extend(checksum.to_be_bytes());
        field.extend((size as u32).to_be_bytes());
        self.record(&pdu(0, seq, &field));
    }
}

/// How a repeated segment is to be.
#[derive(Clone, Copy)]
struct Repeated {
    len: usize,
    offset: usize,
    flags: u8,
    entries: u8,
    seq: u8,
}

/// A segment of 5 bytes at the start of the file, one remote entry, no indication.
const PLAIN: Repeated = Repeated {
    len: 5,
    offset: 0,
    flags: 0,
    entries: 1,
    seq: SEQ,
};

/// A segment of a transfer that has begun, again and again.
fn segment(name: &str, repeated: Repeated) -> Lap {
    let mut recording = Recording::new(STORE, HANDLERS, repeated.flags, repeated.entries);
    recording.metadata(SEQ, repeated.len);
    recording.segment(repeated.seq, repeated.offset, &contents(repeated.len));
    Lap {
        name: name.to_string(),
        recording: recording.0,
        calls: 1,
        satrs_differs: repeated.seq != SEQ,
    }
}

/// The calls of W1, again and again. The original keeps its progress from one transfer to the next, which is fault 6 there; it is
/// ignored, so that each transfer ends well.
fn w1() -> Lap {
    let mut handlers = HANDLERS;
    handlers[SIZE_ERROR] = IGNORE;
    let mut recording = Recording::new(16, handlers, 0, 1);
    let file = [1, 2, 3, 4, 5];
    recording.metadata(SEQ, file.len());
    recording.segments(SEQ, &file);
    recording.eof(SEQ, checksum(&file), file.len());
    Lap {
        name: "W1's three calls, each".to_string(),
        recording: recording.0,
        calls: 3,
        satrs_differs: false,
    }
}

/// A file that waits for what its EOF's checksum says.
fn waiting(len: usize) -> Recording {
    let mut recording = Recording::new(STORE, HANDLERS, 0, 1);
    let file = contents(len);
    recording.metadata(SEQ, len);
    recording.segments(SEQ, &file);
    recording.eof(SEQ, checksum(&file).wrapping_add(1), len);
    recording
}

/// A flagged poll of a waiting file, again and again.
fn poll(len: usize) -> Lap {
    let mut recording = waiting(len);
    recording.flagged_poll();
    let name = format!("flagged poll, waiting file of {} bytes", commas(len as u64));
    Lap {
        name,
        recording: recording.0,
        calls: 1,
        satrs_differs: false,
    }
}

/// A number with commas.
pub fn commas(number: u64) -> String {
    if number < 1000 {
        return number.to_string();
    }
    format!("{},{:03}", commas(number / 1000), number % 1000)
}

/// One call of each kind.
pub fn one_call() -> Vec<Lap> {
    let kinds = [
        ("segment of 5 bytes, 1 entry", PLAIN),
        (
            "segment of 5 bytes, 8 entries",
            Repeated {
                entries: 8,
                ..PLAIN
            },
        ),
        (
            "segment of 1,000 bytes, 1 entry",
            Repeated { len: 1000, ..PLAIN },
        ),
        (
            "segment of 1,000 bytes, 8 entries",
            Repeated {
                len: 1000,
                entries: 8,
                ..PLAIN
            },
        ),
        (
            "segment of 5 bytes, with its indication",
            Repeated { flags: 1, ..PLAIN },
        ),
        (
            "foreign segment of 5 bytes (13)",
            Repeated {
                seq: FOREIGN,
                ..PLAIN
            },
        ),
    ];
    let segments = kinds.map(|(name, repeated)| segment(name, repeated));
    segments.into_iter().chain([w1(), poll(65000)]).collect()
}

/// The same call over more bytes.
pub fn growth() -> Vec<Lap> {
    let segments = [10, 30, 100, 300, 1000, 3000, 10000].map(|len| {
        let name = format!("segment of {} bytes", commas(len as u64));
        segment(
            &name,
            Repeated {
                len,
                offset: GROWTH_OFFSET,
                ..PLAIN
            },
        )
    });
    let polls = [100, 1000, 10000, 65000].map(poll);
    segments.into_iter().chain(polls).collect()
}

/// 400,000 transfers of 5 bytes each.
fn small_transfers() -> Vec<u8> {
    let mut recording = Recording::new(16, HANDLERS, 0, 1);
    for i in 0..400_000u32 {
        let bytes = i.to_be_bytes();
        let file = [bytes[3], bytes[2], bytes[1], bytes[0], 5];
        recording.metadata(bytes[3], file.len());
        recording.segments(bytes[3], &file);
        recording.eof(bytes[3], checksum(&file), file.len());
    }
    recording.0
}

/// 1.3 million segments of 5 bytes, over the whole store again and again.
fn small_segments() -> Vec<u8> {
    let mut recording = Recording::new(STORE, HANDLERS, 0, 1);
    let file = contents(STORE.into());
    recording.metadata(SEQ, file.len());
    for (i, bytes) in file.chunks(5).enumerate().cycle().take(1_300_000) {
        recording.segment(SEQ, i * 5, bytes);
    }
    recording.0
}

/// 800 transfers of 65,000 bytes, each of 67 calls.
fn large_segments() -> Vec<u8> {
    let mut recording = Recording::new(STORE, HANDLERS, 0, 1);
    let file = contents(65000);
    for i in 0..800u32 {
        let seq = i as u8;
        recording.metadata(seq, file.len());
        recording.segments(seq, &file);
        recording.eof(seq, checksum(&file), file.len());
    }
    recording.0
}

/// 20,000 flagged polls of a waiting file.
fn many_polls() -> Vec<u8> {
    let mut recording = waiting(65000);
    for _ in 0..20_000 {
        recording.flagged_poll();
    }
    recording.0
}

/// The recordings that are replayed whole.
pub fn replays() -> Vec<Replay> {
    vec![
        Replay {
            name: "1,200,000 calls of small transfers",
            recording: small_transfers(),
        },
        Replay {
            name: "1,300,000 segments of 5 bytes",
            recording: small_segments(),
        },
        Replay {
            name: "53,600 calls with segments of 1,000 bytes",
            recording: large_segments(),
        },
        Replay {
            name: "20,000 flagged polls of 65,000 bytes",
            recording: many_polls(),
        },
    ]
}
