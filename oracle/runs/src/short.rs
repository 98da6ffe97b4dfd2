//! All short recordings: a Metadata and three more records, in every configuration that can matter to them.

use crate::recording::{Config, Record, Recording, Remote};

/// Records after the Metadata.
const RECORDS: u32 = 3;
/// The store fits the good file's five bytes and one more.
const STORE_LEN: u16 = 6;

/// What the records after a Metadata can be: kind, timer flag and data field; `6` as sequence number is foreign.
const ALPHABET: [(Kind, bool, u8, &[u8]); 14] = [
    (Kind::Poll, false, 0, &[]),
    (Kind::Poll, true, 0, &[]),
    (Kind::FileData, false, 5, &[0, 0, 0, 0, 1, 2, 3, 4, 5]),
    (Kind::FileData, true, 5, &[0, 0, 0, 0, 1, 2, 3, 4, 5]),
    (Kind::FileData, false, 5, &[0, 0, 0, 4, 5]),
    (Kind::FileData, true, 5, &[0, 0, 0, 5, 7, 7]),
    (Kind::FileData, true, 5, &[0, 0, 0, 6]),
    (Kind::FileData, true, 6, &[0, 0, 0, 0, 9]),
    (Kind::Directive, false, 5, &[4, 0, 6, 2, 3, 4, 0, 0, 0, 5]),
    (Kind::Directive, true, 5, &[4, 0, 6, 2, 3, 4, 0, 0, 0, 5]),
    (Kind::Directive, false, 5, &[4, 0, 0, 0, 0, 0, 0, 0, 0, 0]),
    (Kind::Directive, true, 5, &[4, 0, 5, 0, 0, 0, 0, 0, 0, 4]),
    (
        Kind::Directive,
        true,
        6,
        &[7, 0x40, 0, 0, 0, 0, 1, b'c', 1, b'd'],
    ),
    (Kind::Directive, true, 5, &[9, 0]),
];

/// The kind of a record.
#[derive(Clone, Copy, PartialEq, Eq)]
enum Kind {
    Poll,
    Directive,
    FileData,
}

/// A configuration and the checksum type of its Metadata.
struct Variant {
    checksum_type: u8,
    config: Config,
}

/// All of them, by number.
pub struct Short {
    variants: Vec<Variant>,
}

/// Every choice of a handler for some places among the ten; the others keep the default.
fn handlers(places: &[usize]) -> Vec<[u8; 10]> {
    let mut all = vec![[1, 1, 1, 1, 3, 1, 1, 1, 1, 3]];
    for place in places {
        let mut more = Vec::new();
        for handlers in &all {
            for handler in [1, 3, 4] {
                let mut changed: [u8; 10] = *handlers;
                changed[*place] = handler;
                more.push(changed);
            }
        }
        all = more;
    }
    all
}

/// The variants of a checksum type: handlers of the faults that it can meet, limits, and discard or not.
fn variants(checksum_type: u8, places: &[usize], limits: &[u32]) -> Vec<Variant> {
    let mut variants = Vec::new();
    for handlers in handlers(places) {
        for limit in limits {
            for discard in [false, true] {
                let config = Config {
                    local_width: 1,
                    local_id: 2,
                    store_len: STORE_LEN,
                    handlers,
                    segment_indication: true,
                    eof_indication: true,
                    remotes: vec![Remote {
                        id: 1,
                        limit: *limit,
                        discard,
                    }],
                };
                variants.push(Variant {
                    checksum_type,
                    config,
                });
            }
        }
    }
    variants
}

/// A PDU of entity 1 for entity 2.
fn pdu(kind: Kind, seq: u8, field: &[u8]) -> Vec<u8> {
    let byte_0 = if kind == Kind::FileData { 0x34 } else { 0x24 };
    let mut pdu = vec![byte_0, 0, field.len() as u8, 0, 1, seq, 2];
    pdu.extend(field);
    pdu
}

/// A record of the alphabet.
fn record(letter: usize) -> Record {
    let (kind, timer, seq, field) = ALPHABET[letter];
    let pdu = Some(pdu(kind, seq, field)).filter(|_| kind != Kind::Poll);
    Record { timer, pdu }
}

impl Short {
    /// Places 3, 4, 5, 8 and 9 have the handlers of faults 4, 5, 6, 10 and 11.
    pub fn new() -> Self {
        let mut all = variants(0, &[3, 4, 5, 8], &[0, 1, 2, 3]);
        all.extend(variants(15, &[3, 5], &[1]));
        all.extend(variants(1, &[3, 5, 9], &[1]));
        Self { variants: all }
    }

    /// How many there are.
    pub fn count(&self) -> u64 {
        self.variants.len() as u64 * (ALPHABET.len() as u64).pow(RECORDS)
    }

    /// The recording with this number.
    pub fn recording(&self, index: u64) -> Vec<u8> {
        let letters = ALPHABET.len() as u64;
        let variant = &self.variants[(index / letters.pow(RECORDS)) as usize];
        let metadata = [
            7,
            0x40 | variant.checksum_type,
            0,
            0,
            0,
            5,
            1,
            b'a',
            1,
            b'b',
        ];
        let mut records = vec![Record {
            timer: false,
            pdu: Some(pdu(Kind::Directive, 5, &metadata)),
        }];
        let letter = |place| (index / letters.pow(place) % letters) as usize;
        records.extend((0..RECORDS).map(|place| record(letter(place))));
        Recording {
            config: variant.config.clone(),
            records,
            bad: None,
        }
        .write()
    }
}
