//! The PDU header, and what all PDUs have in common.

pub mod eof;
pub mod file_data;
pub mod finished;
pub mod metadata;

use super::{numbered, Direction, LargeFileFlag, PduType, SegmentMetadataFlag, TransmissionMode};
use crate::util::{UnsignedByteField, UnsignedEnum};
use crate::{first, ByteConversionError};
use std::fmt;

/// The version bits that stand in byte 0.
const CFDP_VERSION: u8 = 0b001;
/// Bytes 0 to 3, before the ids.
const FIXED_HEADER_LEN: usize = 4;

numbered!(FileDirectiveType {
    EofPdu = 4,
    FinishedPdu = 5,
    AckPdu = 6,
    MetadataPdu = 7,
    NakPdu = 8,
    PromptPdu = 9,
    KeepAlivePdu = 12,
});

/// Why a PDU is not read.
#[derive(Debug, Clone, Copy, PartialEq, Eq)]
pub enum PduError {
    ByteConversion(ByteConversionError),
    CfdpVersionMissmatch(u8),
    InvalidEntityLen(u8),
    InvalidTransactionSeqNumLen(u8),
    /// The stand-in reads no PDU with a CRC.
    CrcNotSupported,
    InvalidDirectiveType {
        found: u8,
        expected: Option<FileDirectiveType>,
    },
    InvalidConditionCode(u8),
    FormatError,
}

impl fmt::Display for PduError {
    fn fmt(&self, f: &mut fmt::Formatter<'_>) -> fmt::Result {
        write!(f, "{self:?}")
    }
}

impl std::error::Error for PduError {}

impl From<ByteConversionError> for PduError {
    fn from(error: ByteConversionError) -> Self {
        Self::ByteConversion(error)
    }
}

/// The part of a header that all PDUs of a transaction share.
#[derive(Debug, Clone, Copy, PartialEq, Eq)]
pub struct CommonPduConfig {
    source_id: UnsignedByteField,
    dest_id: UnsignedByteField,
    pub transaction_seq_num: UnsignedByteField,
    pub trans_mode: TransmissionMode,
    pub file_flag: LargeFileFlag,
    pub direction: Direction,
}

impl CommonPduConfig {
    pub fn source_id(&self) -> UnsignedByteField {
        self.source_id
    }

    pub fn dest_id(&self) -> UnsignedByteField {
        self.dest_id
    }
}

impl Default for CommonPduConfig {
    fn default() -> Self {
        Self {
            source_id: Default::default(),
            dest_id: Default::default(),
            transaction_seq_num: Default::default(),
            trans_mode: TransmissionMode::Acknowledged,
            file_flag: LargeFileFlag::Normal,
            direction: Direction::TowardsReceiver,
        }
    }
}

/// A PDU header.
#[derive(Debug, Clone, Copy, PartialEq, Eq)]
pub struct PduHeader {
    pdu_type: PduType,
    pdu_conf: CommonPduConfig,
    seg_metadata_flag: SegmentMetadataFlag,
    pdu_datafield_len: u16,
}

/// A width field's value: one less than the bytes of the number.
fn width(field: u8) -> Option<usize> {
    Some(usize::from(field & 0b111) + 1).filter(|width| matches!(width, 1 | 2 | 4 | 8))
}

impl PduHeader {
    /// The header of a directive PDU: no segment metadata, segmentation control 0.
    pub fn new_no_file_data(pdu_conf: CommonPduConfig, pdu_datafield_len: u16) -> Self {
        Self {
            pdu_type: PduType::FileDirective,
            pdu_conf,
            seg_metadata_flag: SegmentMetadataFlag::NotPresent,
            pdu_datafield_len,
        }
    }

    /// Reads a header and its length. The data field must be whole as well.
    pub fn from_bytes(buf: &[u8]) -> Result<(Self, usize), PduError> {
        let fixed = first(buf, FIXED_HEADER_LEN)?;
        if fixed[0] >> 5 != CFDP_VERSION {
            return Err(PduError::CfdpVersionMissmatch(fixed[0] >> 5));
        }
        let id_width = width(fixed[3] >> 4).ok_or(PduError::InvalidEntityLen(fixed[3]))?;
        let seq_width = width(fixed[3]).ok_or(PduError::InvalidTransactionSeqNumLen(fixed[3]))?;
        if fixed[0] & 0b10 != 0 {
            return Err(PduError::CrcNotSupported);
        }
        let pdu_datafield_len = u16::from_be_bytes([fixed[1], fixed[2]]);
        let header_len = FIXED_HEADER_LEN + 2 * id_width + seq_width;
        first(buf, header_len + usize::from(pdu_datafield_len))?;
        let seq_at = FIXED_HEADER_LEN + id_width;
        let dest_at = seq_at + seq_width;
        let bit = |byte: u8, place: u8| (byte >> place) & 1;
        let pdu_conf = CommonPduConfig {
            source_id: UnsignedByteField::new_from_be_bytes(id_width, &buf[FIXED_HEADER_LEN..])?,
            transaction_seq_num: UnsignedByteField::new_from_be_bytes(seq_width, &buf[seq_at..])?,
            dest_id: UnsignedByteField::new_from_be_bytes(id_width, &buf[dest_at..])?,
            direction: Direction::try_from(bit(fixed[0], 3)).unwrap(),
            trans_mode: TransmissionMode::try_from(bit(fixed[0], 2)).unwrap(),
            file_flag: LargeFileFlag::try_from(bit(fixed[0], 0)).unwrap(),
        };
        let header = Self {
            pdu_type: PduType::try_from(bit(fixed[0], 4)).unwrap(),
            pdu_conf,
            seg_metadata_flag: SegmentMetadataFlag::try_from(bit(fixed[3], 3)).unwrap(),
            pdu_datafield_len,
        };
        Ok((header, header_len))
    }

    /// Writes the header and tells its length.
    pub fn write_to_bytes(&self, buf: &mut [u8]) -> Result<usize, PduError> {
        let found = buf.len();
        let expected = self.header_len();
        if found < expected {
            return Err(ByteConversionError::ToSliceTooSmall { found, expected }.into());
        }
        let conf = &self.pdu_conf;
        buf[0] = CFDP_VERSION << 5
            | (self.pdu_type as u8) << 4
            | (conf.direction as u8) << 3
            | (conf.trans_mode as u8) << 2
            | conf.file_flag as u8;
        buf[1..3].copy_from_slice(&self.pdu_datafield_len.to_be_bytes());
        buf[3] = (conf.source_id.size() as u8 - 1) << 4
            | (self.seg_metadata_flag as u8) << 3
            | (conf.transaction_seq_num.size() as u8 - 1);
        let mut at = FIXED_HEADER_LEN;
        for field in [conf.source_id, conf.transaction_seq_num, conf.dest_id] {
            at += field.write_to_be_bytes(&mut buf[at..])?;
        }
        Ok(at)
    }

    pub fn header_len(&self) -> usize {
        let conf = &self.pdu_conf;
        FIXED_HEADER_LEN
            + conf.source_id.size()
            + conf.transaction_seq_num.size()
            + conf.dest_id.size()
    }

    pub fn pdu_type(&self) -> PduType {
        self.pdu_type
    }

    pub fn pdu_datafield_len(&self) -> usize {
        usize::from(self.pdu_datafield_len)
    }

    pub fn common_pdu_conf(&self) -> &CommonPduConfig {
        &self.pdu_conf
    }

    pub fn seg_metadata_flag(&self) -> SegmentMetadataFlag {
        self.seg_metadata_flag
    }
}

/// A header with the data field that it announces.
pub(crate) fn header_and_data_field(buf: &[u8]) -> Result<(PduHeader, &[u8]), PduError> {
    let (header, header_len) = PduHeader::from_bytes(buf)?;
    Ok((
        header,
        first(&buf[header_len..], header.pdu_datafield_len())?,
    ))
}

/// Takes numbers and stretches off the front of a data field.
pub(crate) struct FieldReader<'a> {
    pub rest: &'a [u8],
}

impl<'a> FieldReader<'a> {
    /// The next `len` bytes.
    pub fn take(&mut self, len: usize) -> Result<&'a [u8], PduError> {
        let taken = first(self.rest, len)?;
        self.rest = &self.rest[len..];
        Ok(taken)
    }

    /// The next big-endian number of `width` bytes.
    pub fn number(&mut self, width: usize) -> Result<u64, PduError> {
        Ok(UnsignedByteField::new_from_be_bytes(width, self.take(width)?)?.value())
    }

    /// A size or an offset: 8 bytes with the large file flag, else 4.
    pub fn size(&mut self, header: &PduHeader) -> Result<u64, PduError> {
        match header.pdu_conf.file_flag {
            LargeFileFlag::Normal => self.number(4),
            LargeFileFlag::Large => self.number(8),
        }
    }

    /// A byte that counts the bytes after it, and those bytes.
    pub fn counted(&mut self) -> Result<&'a [u8], PduError> {
        let len = self.number(1)? as usize;
        self.take(len)
    }
}

/// What every PDU tells of itself.
pub trait CfdpPdu {
    fn pdu_header(&self) -> &PduHeader;
    fn file_directive_type(&self) -> Option<FileDirectiveType>;

    fn source_id(&self) -> UnsignedByteField {
        self.pdu_header().pdu_conf.source_id
    }

    fn dest_id(&self) -> UnsignedByteField {
        self.pdu_header().pdu_conf.dest_id
    }

    fn pdu_type(&self) -> PduType {
        self.pdu_header().pdu_type
    }
}

/// A PDU that can be written.
pub trait WritablePduPacket {
    fn len_written(&self) -> usize;
    fn write_to_bytes(&self, buf: &mut [u8]) -> Result<usize, PduError>;
}
