//! Drives the original `DestinationHandler`, one call at a time, and says what it did.

use crate::recording::{Config, CONDITIONS};
use crate::rules::Rules;
use crate::store::{OneFileStore, Place, Verdict, Watch};
use crate::trace::{Id, Indication};
use satrs::cfdp::dest::{CfdpPacketSender, DestError, DestinationHandler};
use satrs::cfdp::filestore::NativeFilestore;
use satrs::cfdp::user::{
    CfdpUser, FileSegmentRecvdParams, MetadataReceivedParams, TransactionFinishedParams,
};
use satrs::cfdp::{
    CheckTimerCreator, DefaultFaultHandler, IndicationConfig, LocalEntityConfig, PacketInfo,
    RemoteEntityConfig, RemoteEntityConfigProvider, StdRemoteEntityConfigProvider, TimerContext,
    TransactionId, UserFaultHandler,
};
use satrs::time::CountdownProvider;
use spacepackets::cfdp::pdu::{FileDirectiveType, PduError};
use spacepackets::cfdp::{
    ChecksumType, ConditionCode, FaultHandlerCode, PduType, TransmissionMode,
};
use spacepackets::util::{UnsignedByteField, UnsignedEnum};
use std::cell::{Cell, RefCell};
use std::panic::{catch_unwind, AssertUnwindSafe};
use std::rc::Rc;
use std::sync::{Arc, Mutex};

/// The out buffer's length: the longest Finished PDU.
const MAX_PACKET_LEN: usize = 40;

/// Where and why the Rust panicked.
#[derive(Debug, Clone, PartialEq, Eq, Default)]
pub struct Panic {
    /// The file's name without directories, and the line.
    pub place: String,
    pub message: String,
}

/// How a call of the Rust ended.
#[derive(Debug, Clone, PartialEq, Eq)]
pub enum Outcome {
    Done,
    /// An error, as document 01 numbers it.
    Refused(u8),
    /// An error that document 01 has no number for.
    Unexpected(String),
    Panicked(Panic),
}

/// All that a call of the Rust did but for the file.
#[derive(Debug, Clone)]
pub struct RawCall {
    pub outcome: Outcome,
    pub pdu: Option<Vec<u8>>,
    pub indications: Vec<Indication>,
    pub verdict: Option<Verdict>,
    pub spared: bool,
}

/// What the callbacks of one call saw.
#[derive(Default)]
struct Log {
    indications: Vec<Indication>,
    pdu: Option<Vec<u8>>,
}

type SharedLog = Arc<Mutex<Log>>;

/// The values of a transaction id.
pub fn id_of(id: &TransactionId) -> Id {
    Id {
        source: id.source_id().value(),
        seq: id.seq_num().value(),
    }
}

/// Notes the indications that document 01 has.
struct User(SharedLog);

impl User {
    /// Adds an indication of this call.
    fn note(&self, indication: Indication) {
        self.0.lock().unwrap().indications.push(indication);
    }
}

impl CfdpUser for User {
    fn metadata_recvd_indication(&mut self, params: &MetadataReceivedParams) {
        self.note(Indication::Metadata {
            id: id_of(&params.id),
            size: params.file_size,
        });
    }

    fn file_segment_recvd_indication(&mut self, params: &FileSegmentRecvdParams) {
        self.note(Indication::Segment {
            id: id_of(&params.id),
            offset: params.offset,
            len: params.length as u64,
        });
    }

    fn eof_recvd_indication(&mut self, id: &TransactionId) {
        self.note(Indication::Eof { id: id_of(id) });
    }

    fn transaction_finished_indication(&mut self, params: &TransactionFinishedParams) {
        self.note(Indication::Finished {
            id: id_of(&params.id),
            condition: params.condition_code as u8,
            delivery: params.delivery_code as u8,
            status: params.file_status as u8,
        });
    }

    fn transaction_indication(&mut self, _: &TransactionId) {}
    fn eof_sent_indication(&mut self, _: &TransactionId) {}
    fn report_indication(&mut self, _: &TransactionId) {}
    fn suspended_indication(&mut self, _: &TransactionId, _: ConditionCode) {}
    fn resumed_indication(&mut self, _: &TransactionId, _: u64) {}
    fn fault_indication(&mut self, _: &TransactionId, _: ConditionCode, _: u64) {}
    fn abandoned_indication(&mut self, _: &TransactionId, _: ConditionCode, _: u64) {}
}

/// Notes the fault reports, with the handler that gave each.
struct Faults(SharedLog);

impl Faults {
    /// Adds a fault report of this call.
    fn note(
        &self,
        handler: FaultHandlerCode,
        id: TransactionId,
        cond: ConditionCode,
        progress: u64,
    ) {
        self.0.lock().unwrap().indications.push(Indication::Fault {
            handler: handler as u8,
            id: id_of(&id),
            condition: cond as u8,
            progress,
        });
    }
}

impl UserFaultHandler for Faults {
    fn notice_of_suspension_cb(&mut self, id: TransactionId, cond: ConditionCode, progress: u64) {
        self.note(FaultHandlerCode::NoticeOfSuspension, id, cond, progress);
    }

    fn notice_of_cancellation_cb(&mut self, id: TransactionId, cond: ConditionCode, progress: u64) {
        self.note(FaultHandlerCode::NoticeOfCancellation, id, cond, progress);
    }

    fn abandoned_cb(&mut self, id: TransactionId, cond: ConditionCode, progress: u64) {
        self.note(FaultHandlerCode::AbandonTransaction, id, cond, progress);
    }

    fn ignore_cb(&mut self, id: TransactionId, cond: ConditionCode, progress: u64) {
        self.note(FaultHandlerCode::IgnoreError, id, cond, progress);
    }
}

/// Keeps the PDU that a call sends.
struct Sender(SharedLog);

impl CfdpPacketSender for Sender {
    fn send_pdu(
        &mut self,
        _: PduType,
        _: Option<FileDirectiveType>,
        raw_pdu: &[u8],
    ) -> Result<(), PduError> {
        self.0.lock().unwrap().pdu = Some(raw_pdu.to_vec());
        Ok(())
    }
}

/// A check timer that has expired when the record's timer flag says so.
#[derive(Debug, Clone)]
struct FlagTimer(Rc<Cell<bool>>);

impl CountdownProvider for FlagTimer {
    fn has_expired(&self) -> bool {
        self.0.get()
    }

    fn reset(&mut self) {}
}

impl CheckTimerCreator for FlagTimer {
    fn get_check_timer_provider(&self, _: TimerContext) -> Box<dyn CountdownProvider> {
        Box::new(self.clone())
    }
}

/// The configuration of the local entity.
fn local_config(config: &Config, log: &SharedLog) -> LocalEntityConfig {
    let mut default_fault_handler = DefaultFaultHandler::new(Box::new(Faults(log.clone())));
    for (condition, handler) in CONDITIONS.iter().zip(config.handlers) {
        default_fault_handler.set_fault_handler(
            ConditionCode::try_from(*condition).unwrap(),
            FaultHandlerCode::try_from(handler).unwrap(),
        );
    }
    LocalEntityConfig {
        id: UnsignedByteField::new(config.local_width.into(), config.local_id),
        indication_cfg: IndicationConfig {
            eof_recv: config.eof_indication,
            file_segment_recv: config.segment_indication,
            ..Default::default()
        },
        default_fault_handler,
    }
}

/// The table of remote entities.
fn remote_table(config: &Config) -> StdRemoteEntityConfigProvider {
    let mut table = StdRemoteEntityConfigProvider::default();
    for remote in &config.remotes {
        let mut entry = RemoteEntityConfig::new_with_default_values(
            UnsignedByteField::new(8, remote.id),
            MAX_PACKET_LEN,
            MAX_PACKET_LEN,
            false,
            false,
            TransmissionMode::Unacknowledged,
            ChecksumType::Modular,
        );
        entry.check_limit = remote.limit;
        entry.disposition_on_cancellation = remote.discard;
        table.add_config(&entry);
    }
    table
}

thread_local! {
    /// The last panic, as the hook saw it.
    static LAST_PANIC: RefCell<Panic> = RefCell::default();
}

/// Makes panics silent and keeps where and why they happened.
pub fn watch_panics() {
    std::panic::set_hook(Box::new(|info| {
        let place = info.location().map_or(String::new(), |location| {
            let file = location.file().rsplit('/').next().unwrap_or("");
            format!("{file}:{}", location.line())
        });
        let payload = info.payload();
        let text = payload.downcast_ref::<&str>().map(|text| text.to_string());
        let text = text.or_else(|| payload.downcast_ref::<String>().cloned());
        let message = text.unwrap_or_default();
        LAST_PANIC.with(|last| *last.borrow_mut() = Panic { place, message });
    }));
}

/// The number that document 01 has for a PDU that is not read.
fn pdu_refusal(error: &PduError) -> u8 {
    match error {
        PduError::ByteConversion(_) => 3,
        PduError::CfdpVersionMissmatch(_) => 4,
        PduError::InvalidEntityLen(_) | PduError::InvalidTransactionSeqNumLen(_) => 5,
        PduError::CrcNotSupported => 6,
        PduError::InvalidDirectiveType { .. } | PduError::FormatError => 7,
        PduError::InvalidConditionCode(_) => 10,
    }
}

/// The outcome that document 01 has for an error of the handler.
fn refusal(error: DestError) -> Outcome {
    Outcome::Refused(match error {
        DestError::CantProcessPacketType(_) => 8,
        DestError::RecvdMetadataButIsBusy => 11,
        DestError::WrongStateForFileDataAndEof => 12,
        // An EOF with a condition that is not even a known one.
        DestError::Pdu(PduError::InvalidConditionCode(_)) => 10,
        DestError::Pdu(_) => 14,
        DestError::NoRemoteCfgFound(_) => 15,
        DestError::EmptySrcFileField => 16,
        DestError::EmptyDestFileField => 17,
        DestError::PathConversion(_) => 18,
        DestError::Filestore(_) => 19,
        other => return Outcome::Unexpected(other.to_string()),
    })
}

/// The handler with its surroundings.
pub struct Driver {
    pub handler: DestinationHandler,
    user: User,
    log: SharedLog,
    timer: Rc<Cell<bool>>,
    watch: Rc<Watch>,
}

impl Driver {
    /// A new handler over the file as it stands.
    pub fn new(config: &Config, place: &Rc<Place>, rules: &Rc<Rules>) -> Self {
        let log = SharedLog::default();
        let timer = Rc::new(Cell::new(false));
        let watch = Rc::new(Watch::default());
        let store = OneFileStore {
            native: NativeFilestore::default(),
            place: place.clone(),
            len: config.store_len.into(),
            rules: rules.clone(),
            watch: watch.clone(),
        };
        let handler = DestinationHandler::new(
            local_config(config, &log),
            MAX_PACKET_LEN,
            Box::new(Sender(log.clone())),
            Box::new(store),
            Box::new(remote_table(config)),
            Box::new(FlagTimer(timer.clone())),
        );
        Self {
            handler,
            user: User(log.clone()),
            log,
            timer,
            watch,
        }
    }

    /// Reads a PDU for its target and hands it, or a poll, to the state machine.
    fn run(&mut self, pdu: Option<&[u8]>) -> Outcome {
        let packet = match pdu.map(PacketInfo::new).transpose() {
            Ok(packet) => packet,
            Err(error) => return Outcome::Refused(pdu_refusal(&error)),
        };
        match self.handler.state_machine(&mut self.user, packet.as_ref()) {
            Ok(sent) if sent == u32::from(self.log.lock().unwrap().pdu.is_some()) => Outcome::Done,
            Ok(sent) => Outcome::Unexpected(format!("says that it sent {sent}")),
            Err(error) => refusal(error),
        }
    }

    /// One call.
    pub fn call(&mut self, timer: bool, pdu: Option<&[u8]>) -> RawCall {
        self.timer.set(timer);
        self.watch.verdict.set(None);
        self.watch.spared.set(false);
        *self.log.lock().unwrap() = Log::default();
        let outcome = catch_unwind(AssertUnwindSafe(|| self.run(pdu)))
            .unwrap_or_else(|_| Outcome::Panicked(LAST_PANIC.with(|last| last.borrow().clone())));
        let log = std::mem::take(&mut *self.log.lock().unwrap());
        RawCall {
            outcome,
            pdu: log.pdu,
            indications: log.indications,
            verdict: self.watch.verdict.get(),
            spared: self.watch.spared.get(),
        }
    }
}
