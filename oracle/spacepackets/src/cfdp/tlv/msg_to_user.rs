//! The option Message to User.

use super::{Tlv, WritableTlv};
use crate::cfdp::pdu::PduError;
use crate::ByteConversionError;

/// A Message to User.
#[derive(Debug, Clone, Copy)]
pub struct MsgToUserTlv<'a> {
    tlv: Tlv<'a>,
}

impl<'a> MsgToUserTlv<'a> {
    pub fn from_bytes(buf: &'a [u8]) -> Result<Self, PduError> {
        Tlv::from_bytes(buf).map(|tlv| Self { tlv })
    }

    pub fn len_full(&self) -> usize {
        self.tlv.len_full()
    }
}

impl WritableTlv for MsgToUserTlv<'_> {
    fn len_written(&self) -> usize {
        self.tlv.len_full()
    }

    fn write_to_bytes(&self, buf: &mut [u8]) -> Result<usize, ByteConversionError> {
        let len = self.tlv.len_full();
        buf[..len].copy_from_slice(self.tlv.raw_data);
        Ok(len)
    }
}
