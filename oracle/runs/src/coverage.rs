//! What a recording reaches, as countable features.

use crate::oracle::{directive, Oracle};
use crate::recording::{Config, Record, Recording};
use crate::rules::{Rule, Rules};
use crate::store::Place;
use crate::trace::{trace, Call, Indication, Receiver};
use spacepackets::cfdp::pdu::{FileDirectiveType, PduHeader};
use spacepackets::cfdp::PduType;
use spacepackets::util::UnsignedEnum;
use std::collections::{BTreeMap, BTreeSet};
use std::fmt;
use std::rc::Rc;

/// Something that a recording reached. A step is the handler's before the call, by its number in `TransactionStep`.
#[derive(Debug, Clone, Copy, PartialEq, Eq, PartialOrd, Ord)]
pub enum Feature {
    BadHeader,
    BadRecord,
    Answer(u8),
    Input {
        step: u8,
        input: &'static str,
        timer: bool,
        accepted: bool,
    },
    Fault {
        condition: u8,
        handler: u8,
        step: u8,
    },
    Finished {
        condition: u8,
        delivery: u8,
        status: u8,
        sent: bool,
        step: u8,
    },
    Limit(u32),
    Widths {
        id: usize,
        seq: usize,
        large: bool,
    },
    Rule(&'static str),
}

impl fmt::Display for Feature {
    fn fmt(&self, f: &mut fmt::Formatter<'_>) -> fmt::Result {
        match *self {
            Self::BadHeader => write!(f, "bad header"),
            Self::BadRecord => write!(f, "bad record"),
            Self::Answer(number) => write!(f, "answer {number}"),
            Self::Input {
                step,
                input,
                timer,
                accepted,
            } => {
                let timer = if timer { ", timer" } else { "" };
                let taken = if accepted { "accepted" } else { "refused" };
                write!(f, "step {step}, {input}{timer}: {taken}")
            }
            Self::Fault {
                condition,
                handler,
                step,
            } => {
                write!(f, "fault {condition}, handler {handler}, from step {step}")
            }
            Self::Finished {
                condition,
                delivery,
                status,
                sent,
                step,
            } => {
                let sent = if sent { ", PDU sent" } else { "" };
                write!(
                    f,
                    "finished: condition {condition}, delivery {delivery}, status {status}, from step {step}{sent}"
                )
            }
            Self::Limit(limit) => write!(f, "fault 10 at limit {limit}"),
            Self::Widths { id, seq, large } => {
                let large = if large { ", large file" } else { "" };
                write!(f, "accepted PDU with widths {id} and {seq}{large}")
            }
            Self::Rule(name) => write!(f, "rule {name}"),
        }
    }
}

/// A recording's trace by the oracle, and what it reached.
pub struct Observed {
    pub trace: Vec<String>,
    pub reached: BTreeMap<Feature, u64>,
}

/// The kind of a record.
fn input(record: &Record) -> &'static str {
    let pdu = match record.pdu.as_deref() {
        None => return "poll",
        Some(pdu) => pdu,
    };
    let is_file_data = PduHeader::from_bytes(pdu)
        .map_or(false, |(header, _)| header.pdu_type() == PduType::FileData);
    match directive(pdu) {
        None if is_file_data => "file data",
        None => "no PDU",
        Some(FileDirectiveType::MetadataPdu) => "Metadata",
        Some(FileDirectiveType::EofPdu) => "EOF",
        Some(FileDirectiveType::AckPdu) => "ACK",
        Some(_) => "other directive",
    }
}

/// The widths of an accepted PDU.
fn widths(record: &Record) -> Option<Feature> {
    let (header, _) = PduHeader::from_bytes(record.pdu.as_deref()?).ok()?;
    let conf = header.common_pdu_conf();
    Some(Feature::Widths {
        id: conf.source_id().size(),
        seq: conf.transaction_seq_num.size(),
        large: conf.file_flag as u8 == 1,
    })
}

/// The features of one call.
fn features(config: &Config, step: u8, record: &Record, call: &Call) -> Vec<Feature> {
    let mut features = vec![
        Feature::Answer(call.answer),
        Feature::Input {
            step,
            input: input(record),
            timer: record.timer,
            accepted: call.answer == 0,
        },
    ];
    if call.answer == 0 {
        features.extend(widths(record));
    }
    for indication in &call.indications {
        match *indication {
            Indication::Fault {
                handler,
                condition,
                id,
                ..
            } => {
                features.push(Feature::Fault {
                    condition,
                    handler,
                    step,
                });
                let limit = config.remote(id.source).map_or(0, |remote| remote.limit);
                features.extend(Some(Feature::Limit(limit.min(6))).filter(|_| condition == 10));
            }
            Indication::Finished {
                condition,
                delivery,
                status,
                ..
            } => {
                let sent = call.pdu.is_some();
                features.push(Feature::Finished {
                    condition,
                    delivery,
                    status,
                    sent,
                    step,
                });
            }
            _ => {}
        }
    }
    features
}

/// Replays a recording on the oracle.
pub fn observe(bytes: &[u8], place: &Rc<Place>, rules: &Rc<Rules>) -> Observed {
    let mut reached = BTreeMap::new();
    let mut count = |feature| *reached.entry(feature).or_insert(0) += 1;
    let before = rules.all_uses();
    let recording = Recording::read(bytes);
    let trace = trace(recording.as_ref(), |recording| {
        let config = &recording.config;
        let mut oracle = Oracle::new(config, place, rules);
        let step = |record: &Record| {
            let step = oracle.step() as u8;
            let call = oracle.call(record.timer, record.pdu.as_deref());
            features(config, step, record, &call)
                .into_iter()
                .for_each(&mut count);
            call
        };
        recording.records.iter().map(step).collect()
    });
    match &recording {
        None => count(Feature::BadHeader),
        Some(recording) if recording.bad.is_some() => count(Feature::BadRecord),
        Some(_) => {}
    }
    for rule in Rule::ALL {
        let uses = rules.uses(*rule) - before[*rule as usize];
        if uses > 0 {
            *reached.entry(Feature::Rule(rule.name())).or_insert(0) += uses;
        }
    }
    Observed { trace, reached }
}

/// Counts over many recordings.
#[derive(Default)]
pub struct Coverage {
    counts: BTreeMap<Feature, u64>,
}

impl Coverage {
    /// Adds what one recording reached.
    pub fn add(&mut self, reached: &BTreeMap<Feature, u64>) {
        for (feature, count) in reached {
            *self.counts.entry(*feature).or_insert(0) += count;
        }
    }

    /// How often a feature was reached.
    pub fn get(&self, feature: &Feature) -> u64 {
        self.counts.get(feature).copied().unwrap_or(0)
    }

    /// All features that were reached.
    pub fn features(&self) -> BTreeSet<Feature> {
        self.counts.keys().copied().collect()
    }

    /// One line for each feature but for the rules, which have a table of their own.
    pub fn print(&self) {
        for (feature, count) in &self.counts {
            if !matches!(feature, Feature::Rule(_)) {
                println!("{count:>9}  {feature}");
            }
        }
    }
}
