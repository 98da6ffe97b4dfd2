//! Options: a type, a length and a value.

pub mod msg_to_user;

use super::numbered;
use super::pdu::{FieldReader, PduError};
use crate::util::{UnsignedByteField, UnsignedEnum};
use crate::ByteConversionError;

numbered!(TlvType {
    FilestoreRequest = 0,
    FilestoreResponse = 1,
    MsgToUser = 2,
    FaultHandler = 4,
    FlowLabel = 5,
    EntityId = 6,
});

/// What an option's type byte says.
pub trait GenericTlv {
    fn tlv_type(&self) -> Option<TlvType>;

    fn is_standard_tlv(&self) -> bool {
        self.tlv_type().is_some()
    }
}

/// An option that can be written.
pub trait WritableTlv {
    fn len_written(&self) -> usize;
    fn write_to_bytes(&self, buf: &mut [u8]) -> Result<usize, ByteConversionError>;

    fn to_vec(&self) -> Vec<u8> {
        let mut bytes = vec![0; self.len_written()];
        self.write_to_bytes(&mut bytes).unwrap();
        bytes
    }
}

/// An option as it was read, type and length byte included.
#[derive(Debug, Clone, Copy, PartialEq, Eq)]
pub struct Tlv<'a> {
    raw_data: &'a [u8],
}

impl<'a> Tlv<'a> {
    pub fn from_bytes(buf: &'a [u8]) -> Result<Self, PduError> {
        let mut fields = FieldReader { rest: buf };
        fields.take(1)?;
        let value = fields.counted()?;
        Ok(Self {
            raw_data: &buf[..2 + value.len()],
        })
    }

    pub fn raw_data(&self) -> Option<&'a [u8]> {
        Some(self.raw_data)
    }

    pub fn len_full(&self) -> usize {
        self.raw_data.len()
    }
}

impl GenericTlv for Tlv<'_> {
    fn tlv_type(&self) -> Option<TlvType> {
        TlvType::try_from(self.raw_data[0]).ok()
    }
}

/// An entity id as an option: the fault location of a Finished PDU.
#[derive(Debug, Clone, Copy)]
pub struct EntityIdTlv {
    entity_id: UnsignedByteField,
}

impl EntityIdTlv {
    pub fn new(entity_id: UnsignedByteField) -> Self {
        Self { entity_id }
    }
}

impl WritableTlv for EntityIdTlv {
    fn len_written(&self) -> usize {
        2 + self.entity_id.size()
    }

    fn write_to_bytes(&self, buf: &mut [u8]) -> Result<usize, ByteConversionError> {
        buf[0] = TlvType::EntityId as u8;
        buf[1] = self.entity_id.size() as u8;
        Ok(2 + self.entity_id.write_to_be_bytes(&mut buf[2..])?)
    }
}
