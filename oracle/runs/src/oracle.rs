//! The oracle: the original handler, with the named rules applied where it and document 01 differ.
//!
//! A rule looks at the PDU as the stand-in reads it, the handler's own state, the configuration and what the
//! handler did; never at another receiver's output. It takes the difference's cause away, or maps the answer exactly.

use crate::driver::{id_of, Driver, Outcome, Panic, RawCall};
use crate::recording::{Config, Record};
use crate::rules::{Rule, Rules};
use crate::store::{Place, Verdict};
use crate::trace::{Call, Id, Indication, Receiver};
use satrs::cfdp::{State, TransactionStep};
use spacepackets::cfdp::pdu::file_data::FileDataPdu;
use spacepackets::cfdp::pdu::finished::{DeliveryCode, FileStatus};
use spacepackets::cfdp::pdu::metadata::MetadataPduReader;
use spacepackets::cfdp::pdu::{FileDirectiveType, PduHeader};
use spacepackets::cfdp::{ConditionCode, PduType, TransmissionMode};
use spacepackets::util::UnsignedEnum;
use std::rc::Rc;

/// The panics that a rule explains: where, how the message begins, and the rule.
const PANICS: [(&str, &str, Rule); 6] = [
    ("dest.rs:262", "not yet implemented", Rule::Idle),
    (
        "dest.rs:322",
        "not yet implemented: check whether ACK",
        Rule::AckFinished,
    ),
    ("dest.rs:379", "source slice length", Rule::MessageToUser),
    (
        "dest.rs:437",
        "not yet implemented: implement cancel",
        Rule::EofError,
    ),
    ("dest.rs:563", "not yet implemented", Rule::Prompt),
    ("mod.rs:548", "index out of bounds", Rule::AckShort),
];

/// Source id and sequence number that a header has.
fn header_id(header: &PduHeader) -> Id {
    let conf = header.common_pdu_conf();
    Id {
        source: conf.source_id().value(),
        seq: conf.transaction_seq_num.value(),
    }
}

/// The directive that a PDU's data field begins with; nothing for file data and for what is no PDU.
pub fn directive(pdu: &[u8]) -> Option<FileDirectiveType> {
    let (header, header_len) = PduHeader::from_bytes(pdu).ok()?;
    let has_directive =
        header.pdu_type() == PduType::FileDirective && header.pdu_datafield_len() > 0;
    FileDirectiveType::try_from(*pdu.get(header_len)?)
        .ok()
        .filter(|_| has_directive)
}

/// A receiver: the original under the rules.
pub struct Oracle<'a> {
    config: &'a Config,
    place: Rc<Place>,
    rules: Rc<Rules>,
    driver: Driver,
    /// The records that the driver's handler has been handed, but for those that made it panic.
    handed: Vec<Record>,
}

impl<'a> Oracle<'a> {
    /// A receiver with no file.
    pub fn new(config: &'a Config, place: &Rc<Place>, rules: &Rc<Rules>) -> Self {
        place.clear();
        Self {
            config,
            place: place.clone(),
            rules: rules.clone(),
            driver: Driver::new(config, place, rules),
            handed: Vec::new(),
        }
    }

    /// A new handler, with nothing behind it, over the file as it stands.
    fn start_anew(&mut self) {
        self.driver = Driver::new(self.config, &self.place, &self.rules);
        self.handed.clear();
    }

    /// A new handler in the state that the records it was handed lead to.
    fn rebuild(&mut self) {
        self.driver = Driver::new(self.config, &self.place, &self.rules);
        let uses = self.rules.all_uses();
        for record in &self.handed {
            self.driver.call(record.timer, record.pdu.as_deref());
        }
        self.rules.set_uses(&uses);
    }

    /// Whether the original's state is idle.
    fn is_idle(&self) -> bool {
        self.driver.handler.state() == State::Idle
    }

    /// The step that the handler is in.
    pub fn step(&self) -> TransactionStep {
        self.driver.handler.step()
    }

    /// Rules `ack-code` and `ack-short`: the acked code is the high half of the data field's second byte, and bytes
    /// after the data field are not read.
    fn with_acked_code(&self, pdu: &[u8]) -> Vec<u8> {
        let mut handed = pdu.to_vec();
        if directive(pdu) == Some(FileDirectiveType::AckPdu) {
            let (header, header_len) = PduHeader::from_bytes(pdu).expect("it has a directive");
            let code_at = header_len + 1;
            if header.pdu_datafield_len() == 1 {
                handed.truncate(if self.rules.is_on(Rule::AckShort) {
                    code_at
                } else {
                    pdu.len()
                });
            } else if pdu[code_at] != 0 && self.rules.apply(Rule::AckCode) {
                handed[code_at] = pdu[code_at] >> 4;
            }
        }
        handed
    }

    /// The refusal that document 01 adds before a PDU's body is taken, if its cause is there and its rule in force.
    fn added_refusal(&self, pdu: &[u8]) -> Option<u8> {
        let (header, _) = PduHeader::from_bytes(pdu).ok()?;
        let directive = directive(pdu);
        let is_metadata = directive == Some(FileDirectiveType::MetadataPdu);
        let is_eof = directive == Some(FileDirectiveType::EofPdu);
        if !(is_metadata || is_eof || header.pdu_type() == PduType::FileData) {
            return None;
        }
        let dest_id = header.common_pdu_conf().dest_id().value();
        if dest_id != self.config.local_id && self.rules.apply(Rule::Destination) {
            Some(9)
        } else if is_metadata {
            self.metadata_refusal(&header, pdu)
        } else {
            self.transaction_refusal(&header, is_eof)
        }
    }

    /// Rules `acknowledged` and `empty-names`, for a Metadata that finds the handler idle.
    fn metadata_refusal(&self, header: &PduHeader, pdu: &[u8]) -> Option<u8> {
        if !self.is_idle() {
            return None;
        }
        let acknowledged = header.common_pdu_conf().trans_mode == TransmissionMode::Acknowledged;
        if acknowledged && self.rules.apply(Rule::Acknowledged) {
            return Some(10);
        }
        let metadata = MetadataPduReader::from_bytes(pdu).ok()?;
        let nameless = metadata.src_file_name().is_empty()
            && metadata.dest_file_name().is_empty()
            && self.config.remote(header_id(header).source).is_some();
        Some(10).filter(|_| nameless && self.rules.apply(Rule::EmptyNames))
    }

    /// Rule `transaction`, for file data and EOF in the steps that take them.
    fn transaction_refusal(&self, header: &PduHeader, is_eof: bool) -> Option<u8> {
        let takes = match self.step() {
            TransactionStep::ReceivingFileDataPdus => true,
            TransactionStep::ReceivingFileDataPdusWithCheckLimitHandling => !is_eof,
            _ => false,
        };
        let running = self.driver.handler.transaction_id();
        let foreign =
            !self.is_idle() && takes && running.map(|id| id_of(&id)) != Some(header_id(header));
        Some(13).filter(|_| foreign && self.rules.apply(Rule::Transaction))
    }

    /// Hands a record to the original and corrects its answer.
    fn hand(&mut self, record: Record) -> Call {
        let was_busy = !self.is_idle();
        let raw = self.driver.call(record.timer, record.pdu.as_deref());
        let mut call = Call {
            pdu: raw.pdu.clone(),
            indications: raw.indications.clone(),
            ..Default::default()
        };
        match &raw.outcome {
            Outcome::Done => {
                call.segment_len = segment_len(record.pdu.as_deref());
                self.correct_finished(&raw, &mut call);
                self.handed.push(record);
            }
            Outcome::Refused(number) => {
                call.answer = *number;
                self.handed.push(record);
                if *number == 18 && self.rules.apply(Rule::StuckInStart) {
                    self.start_anew();
                }
            }
            Outcome::Unexpected(error) => {
                call.panic = Some(error.clone());
                self.handed.push(record);
            }
            Outcome::Panicked(panic) => self.panicked(panic, &record, &mut call),
        }
        if was_busy && self.is_idle() && self.rules.apply(Rule::KeptRecord) {
            self.start_anew();
        }
        call
    }

    /// The answer in place of a panic. But for the idle handler's, the call then counts as not made.
    fn panicked(&mut self, panic: &Panic, record: &Record, call: &mut Call) {
        let known = PANICS.iter().find(|(place, message, _)| {
            panic.place == *place && panic.message.starts_with(message)
        });
        match known {
            Some((_, _, Rule::Idle)) if self.is_idle() && self.rules.apply(Rule::Idle) => {}
            Some((_, _, rule)) if *rule != Rule::Idle && self.rules.apply(*rule) => {
                call.answer = match rule {
                    Rule::MessageToUser if !has_good_names(record.pdu.as_deref()) => 18,
                    Rule::AckShort => 7,
                    _ => 10,
                };
                call.indications.clear();
                self.rebuild();
            }
            _ => {
                call.panic = Some(format!("{} {}", panic.place, panic.message));
                self.rebuild();
            }
        }
    }

    /// Rules `delivery`, `discard` and `finished-condition`, on the Finished indication and the Finished PDU.
    fn correct_finished(&self, raw: &RawCall, call: &mut Call) {
        let delivered = matches!(raw.verdict, Some(Verdict::Match | Verdict::Unsupported));
        let mut pdu_flags = call.pdu.as_mut().map(|pdu| {
            let (_, header_len) = PduHeader::from_bytes(pdu).expect("the handler's own PDU");
            &mut pdu[header_len + 1]
        });
        for indication in &mut call.indications {
            if let Indication::Finished {
                condition,
                delivery,
                status,
                ..
            } = indication
            {
                if delivered
                    && *delivery == DeliveryCode::Incomplete as u8
                    && self.rules.apply(Rule::Delivery)
                {
                    *delivery = DeliveryCode::Complete as u8;
                    pdu_flags.iter_mut().for_each(|flags| **flags &= !0b100);
                }
                if raw.spared {
                    *status = FileStatus::Retained as u8;
                    pdu_flags
                        .iter_mut()
                        .for_each(|flags| **flags |= FileStatus::Retained as u8);
                }
                let unsupported = ConditionCode::UnsupportedChecksumType as u8;
                if let Some(flags) = pdu_flags.as_mut().filter(|flags| ***flags >> 4 == 0) {
                    if *condition == unsupported && self.rules.apply(Rule::FinishedCondition) {
                        **flags |= unsupported << 4;
                    }
                }
            }
        }
    }
}

/// The bytes of a segment, 0 for anything else.
fn segment_len(pdu: Option<&[u8]>) -> u64 {
    let segment = pdu.and_then(|pdu| {
        let (header, _) = PduHeader::from_bytes(pdu).ok()?;
        let is_file_data = header.pdu_type() == PduType::FileData;
        FileDataPdu::from_bytes(pdu).ok().filter(|_| is_file_data)
    });
    segment.map_or(0, |segment| segment.file_data().len() as u64)
}

/// Whether both names of a Metadata are UTF-8.
fn has_good_names(pdu: Option<&[u8]>) -> bool {
    let metadata = pdu.and_then(|pdu| MetadataPduReader::from_bytes(pdu).ok());
    metadata.map_or(false, |metadata| {
        let names = [metadata.src_file_name(), metadata.dest_file_name()];
        names
            .iter()
            .all(|name| std::str::from_utf8(name.value()).is_ok())
    })
}

impl Receiver for Oracle<'_> {
    fn call(&mut self, timer: bool, pdu: Option<&[u8]>) -> Call {
        let pdu = pdu.map(|pdu| self.with_acked_code(pdu));
        let mut call = match pdu.as_deref().and_then(|pdu| self.added_refusal(pdu)) {
            Some(answer) => Call {
                answer,
                ..Default::default()
            },
            None => self.hand(Record { timer, pdu }),
        };
        call.file = self.place.contents();
        call
    }
}
