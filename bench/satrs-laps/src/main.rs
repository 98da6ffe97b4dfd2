//! The original `DestinationHandler` in laps: the last calls of a recording, repeated (bench/README.md, 'Laps'), over a store in
//! memory. What it is lent does as little as it can: indications, fault reports and sent PDUs are counted.

mod store;

use plain::recording::{record, settings, Record};
use plain::{laps, Config};
use satrs::cfdp::dest::{CfdpPacketSender, DestError, DestinationHandler};
use satrs::cfdp::user::{
    CfdpUser, FileSegmentRecvdParams, MetadataReceivedParams, TransactionFinishedParams,
};
use satrs::cfdp::{
    CheckTimerCreator, DefaultFaultHandler, IndicationConfig, LocalEntityConfig, PacketInfo,
    RemoteEntityConfig, RemoteEntityConfigProvider, StdRemoteEntityConfigProvider, TimerContext,
    TransactionId, UserFaultHandler,
};
use satrs::time::CountdownProvider;
use spacepackets::cfdp::pdu::{FileDirectiveType, PduError};
use spacepackets::cfdp::{
    ChecksumType, ConditionCode, FaultHandlerCode, PduType, TransmissionMode,
};
use spacepackets::util::UnsignedByteField;
use std::cell::{Cell, RefCell};
use std::io::{self, Read};
use std::rc::Rc;
use store::MemoryStore;

/// The most bytes of a Finished PDU.
const MAX_PACKET_LEN: usize = 40;
/// The conditions that have a handler, in the order of the recording's header.
const CONDITIONS: [u8; 10] = [1, 2, 3, 4, 5, 6, 7, 8, 10, 11];
/// An error of the original that has no number in document 01.
const UNNUMBERED: u8 = 255;

/// Counts what it is told.
#[derive(Default)]
struct Counter(u64);

impl CfdpUser for Counter {
    fn transaction_finished_indication(&mut self, _: &TransactionFinishedParams) {
        self.0 += 1;
    }
    fn metadata_recvd_indication(&mut self, _: &MetadataReceivedParams) {
        self.0 += 1;
    }
    fn file_segment_recvd_indication(&mut self, _: &FileSegmentRecvdParams) {
        self.0 += 1;
    }
    fn eof_recvd_indication(&mut self, _: &TransactionId) {
        self.0 += 1;
    }
    fn transaction_indication(&mut self, _: &TransactionId) {}
    fn eof_sent_indication(&mut self, _: &TransactionId) {}
    fn report_indication(&mut self, _: &TransactionId) {}
    fn suspended_indication(&mut self, _: &TransactionId, _: ConditionCode) {}
    fn resumed_indication(&mut self, _: &TransactionId, _: u64) {}
    fn fault_indication(&mut self, _: &TransactionId, _: ConditionCode, _: u64) {}
    fn abandoned_indication(&mut self, _: &TransactionId, _: ConditionCode, _: u64) {}
}

impl UserFaultHandler for Counter {
    fn notice_of_suspension_cb(&mut self, _: TransactionId, _: ConditionCode, _: u64) {
        self.0 += 1;
    }
    fn notice_of_cancellation_cb(&mut self, _: TransactionId, _: ConditionCode, _: u64) {
        self.0 += 1;
    }
    fn abandoned_cb(&mut self, _: TransactionId, _: ConditionCode, _: u64) {
        self.0 += 1;
    }
    fn ignore_cb(&mut self, _: TransactionId, _: ConditionCode, _: u64) {
        self.0 += 1;
    }
}

impl CfdpPacketSender for Counter {
    fn send_pdu(
        &mut self,
        _: PduType,
        _: Option<FileDirectiveType>,
        _: &[u8],
    ) -> Result<(), PduError> {
        self.0 += 1;
        Ok(())
    }
}

/// A check timer that has expired when the record's timer flag says so.
#[derive(Debug, Clone)]
struct FlagTimer(Rc<Cell<bool>>);

impl CountdownProvider for FlagTimer {
    fn has_expired(&self) -> bool {
        self.0.get()
    }

    fn reset(&mut self) {}
}

impl CheckTimerCreator for FlagTimer {
    fn get_check_timer_provider(&self, _: TimerContext) -> Box<dyn CountdownProvider> {
        Box::new(self.clone())
    }
}

/// The configuration of the local entity.
fn local_config(config: &Config) -> LocalEntityConfig {
    let mut default_fault_handler = DefaultFaultHandler::new(Box::new(Counter::default()));
    for (condition, handler) in CONDITIONS.iter().zip(config.handlers) {
        default_fault_handler.set_fault_handler(
            ConditionCode::try_from(*condition).unwrap(),
            FaultHandlerCode::try_from(handler).unwrap(),
        );
    }
    LocalEntityConfig {
        id: UnsignedByteField::new(config.local_width, config.local_id),
        indication_cfg: IndicationConfig {
            eof_recv: config.eof_indication,
            file_segment_recv: config.segment_indication,
            ..Default::default()
        },
        default_fault_handler,
    }
}

/// The table of remote entities.
fn remote_table(config: &Config) -> StdRemoteEntityConfigProvider {
    let mut table = StdRemoteEntityConfigProvider::default();
    for remote in &config.remotes {
        let mut entry = RemoteEntityConfig::new_with_default_values(
            UnsignedByteField::new(8, remote.id),
            MAX_PACKET_LEN,
            MAX_PACKET_LEN,
            false,
            false,
            TransmissionMode::Unacknowledged,
            ChecksumType::Modular,
        );
        entry.check_limit = remote.limit;
        entry.disposition_on_cancellation = remote.discard;
        table.add_config(&entry);
    }
    table
}

/// The number that document 01 has for an error of the handler.
fn refusal(error: DestError) -> u8 {
    match error {
        DestError::CantProcessPacketType(_) => 8,
        DestError::RecvdMetadataButIsBusy => 11,
        DestError::WrongStateForFileDataAndEof => 12,
        DestError::Pdu(_) => 14,
        DestError::NoRemoteCfgFound(_) => 15,
        DestError::EmptySrcFileField => 16,
        DestError::EmptyDestFileField => 17,
        DestError::PathConversion(_) => 18,
        DestError::Filestore(_) => 19,
        _ => UNNUMBERED,
    }
}

/// The handler with what it is lent.
struct Original {
    handler: DestinationHandler,
    user: Counter,
    timer: Rc<Cell<bool>>,
}

impl Original {
    /// Makes the call that a record stands for.
    fn call(&mut self, record: &Record) -> u8 {
        self.timer.set(record.timer);
        let packet = match record.pdu.map(PacketInfo::new).transpose() {
            Ok(packet) => packet,
            Err(_) => return UNNUMBERED,
        };
        match self.handler.state_machine(&mut self.user, packet.as_ref()) {
            Ok(_) => 0,
            Err(error) => refusal(error),
        }
    }

    /// Makes the calls of the records in some bytes, and tells the last one's answer.
    fn run(&mut self, bytes: &[u8], mut answer: u8) -> u8 {
        let mut at = 0;
        while let Some(record) = record(&bytes[at..]) {
            answer = self.call(&record);
            at += record.len;
        }
        answer
    }
}

/// The line to print. Nothing where the input is bad.
fn line(input: &[u8]) -> Option<String> {
    let laps = laps::read(input)?;
    let settings = settings(laps.header)?;
    let file = Rc::new(RefCell::new(Vec::with_capacity(settings.store_len)));
    let store = MemoryStore {
        file: file.clone(),
        there: Cell::new(false),
        limit: settings.store_len,
    };
    let timer = Rc::new(Cell::new(false));
    let mut original = Original {
        handler: DestinationHandler::new(
            local_config(&settings.config),
            MAX_PACKET_LEN,
            Box::new(Counter::default()),
            Box::new(store),
            Box::new(remote_table(&settings.config)),
            Box::new(FlagTimer(timer.clone())),
        ),
        user: Counter::default(),
        timer,
    };
    let mut answer = original.run(laps.first, 0);
    for _ in 0..laps.n {
        answer = original.run(laps.lap, answer);
    }
    let len = file.borrow().len();
    Some(format!("laps {} {} - {}", laps.n, answer, len))
}

fn main() -> io::Result<()> {
    let mut input = Vec::new();
    io::stdin().read_to_end(&mut input)?;
    println!("{}", line(&input).unwrap_or_else(|| "bad".to_string()));
    Ok(())
}
