//! The Finished PDU.

use super::{CfdpPdu, FileDirectiveType, PduError, PduHeader, WritablePduPacket};
use crate::cfdp::tlv::{EntityIdTlv, WritableTlv};
use crate::cfdp::{numbered, ConditionCode, Direction};
use crate::ByteConversionError;

numbered!(DeliveryCode { Complete = 0, Incomplete = 1 });
numbered!(FileStatus {
    DiscardDeliberately = 0,
    DiscardedFsRejection = 1,
    Retained = 2,
    Unreported = 3,
});

/// A Finished PDU to be written.
#[derive(Debug, Clone, Copy)]
pub struct FinishedPduCreator {
    pdu_header: PduHeader,
    condition_code: ConditionCode,
    delivery_code: DeliveryCode,
    file_status: FileStatus,
    fault_location: Option<EntityIdTlv>,
}

impl FinishedPduCreator {
    /// A Finished PDU without error and without fault location.
    pub fn new_default(
        pdu_header: PduHeader,
        delivery_code: DeliveryCode,
        file_status: FileStatus,
    ) -> Self {
        let condition_code = ConditionCode::NoError;
        Self::new(pdu_header, condition_code, delivery_code, file_status, None)
    }

    /// A Finished PDU with an error and its fault location.
    pub fn new_with_error(
        pdu_header: PduHeader,
        condition_code: ConditionCode,
        delivery_code: DeliveryCode,
        file_status: FileStatus,
        fault_location: EntityIdTlv,
    ) -> Self {
        Self::new(
            pdu_header,
            condition_code,
            delivery_code,
            file_status,
            Some(fault_location),
        )
    }

    /// Takes the header over, turned towards the sender and with this PDU's data field length.
    fn new(
        mut pdu_header: PduHeader,
        condition_code: ConditionCode,
        delivery_code: DeliveryCode,
        file_status: FileStatus,
        fault_location: Option<EntityIdTlv>,
    ) -> Self {
        let location_len = fault_location.map_or(0, |location| location.len_written());
        pdu_header.pdu_conf.direction = Direction::TowardsSender;
        pdu_header.pdu_datafield_len = 2 + location_len as u16;
        Self {
            pdu_header,
            condition_code,
            delivery_code,
            file_status,
            fault_location,
        }
    }
}

impl CfdpPdu for FinishedPduCreator {
    fn pdu_header(&self) -> &PduHeader {
        &self.pdu_header
    }

    fn file_directive_type(&self) -> Option<FileDirectiveType> {
        Some(FileDirectiveType::FinishedPdu)
    }
}

impl WritablePduPacket for FinishedPduCreator {
    fn len_written(&self) -> usize {
        self.pdu_header.header_len() + self.pdu_header.pdu_datafield_len()
    }

    fn write_to_bytes(&self, buf: &mut [u8]) -> Result<usize, PduError> {
        let found = buf.len();
        let expected = self.len_written();
        if found < expected {
            return Err(ByteConversionError::ToSliceTooSmall { found, expected }.into());
        }
        let at = self.pdu_header.write_to_bytes(buf)?;
        buf[at] = FileDirectiveType::FinishedPdu as u8;
        buf[at + 1] = (self.condition_code as u8) << 4
            | (self.delivery_code as u8) << 2
            | self.file_status as u8;
        if let Some(location) = &self.fault_location {
            location.write_to_bytes(&mut buf[at + 2..])?;
        }
        Ok(expected)
    }
}
