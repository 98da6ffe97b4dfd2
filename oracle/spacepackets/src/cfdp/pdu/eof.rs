//! The EOF PDU.

use super::{header_and_data_field, FieldReader, PduError};
use crate::cfdp::ConditionCode;

/// An EOF PDU. Of one with an error condition only the condition is read.
#[derive(Debug, Clone, Copy)]
pub struct EofPdu {
    condition_code: ConditionCode,
    file_checksum: u32,
    file_size: u64,
}

impl EofPdu {
    pub fn from_bytes(buf: &[u8]) -> Result<Self, PduError> {
        let (header, data_field) = header_and_data_field(buf)?;
        let mut fields = FieldReader { rest: data_field };
        fields.take(1)?;
        let condition = fields.number(1)? as u8 >> 4;
        let condition_code =
            ConditionCode::try_from(condition).map_err(PduError::InvalidConditionCode)?;
        let mut eof = Self {
            condition_code,
            file_checksum: 0,
            file_size: 0,
        };
        if condition_code == ConditionCode::NoError {
            eof.file_checksum = fields.number(4)? as u32;
            eof.file_size = fields.size(&header)?;
            if !fields.rest.is_empty() {
                return Err(PduError::FormatError);
            }
        }
        Ok(eof)
    }

    pub fn condition_code(&self) -> ConditionCode {
        self.condition_code
    }

    pub fn file_checksum(&self) -> u32 {
        self.file_checksum
    }

    pub fn file_size(&self) -> u64 {
        self.file_size
    }
}
