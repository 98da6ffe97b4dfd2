//! The file data PDU.

use super::{header_and_data_field, FieldReader, PduError};
use crate::cfdp::SegmentMetadataFlag;

/// What stands before the offset where the header's segment metadata flag is set.
#[derive(Debug, Clone, Copy, PartialEq, Eq)]
pub struct SegmentMetadata<'a> {
    pub record_continuation_state: u8,
    pub metadata: &'a [u8],
}

/// A file data PDU: a segment, which may be empty, and its offset.
#[derive(Debug, Clone, Copy)]
pub struct FileDataPdu<'a> {
    segment_metadata: Option<SegmentMetadata<'a>>,
    offset: u64,
    file_data: &'a [u8],
}

impl<'a> FileDataPdu<'a> {
    pub fn from_bytes(buf: &'a [u8]) -> Result<Self, PduError> {
        let (header, data_field) = header_and_data_field(buf)?;
        let mut fields = FieldReader { rest: data_field };
        let segment_metadata = match header.seg_metadata_flag() {
            SegmentMetadataFlag::NotPresent => None,
            SegmentMetadataFlag::Present => {
                let byte = fields.number(1)? as u8;
                Some(SegmentMetadata {
                    record_continuation_state: byte >> 6,
                    metadata: fields.take(usize::from(byte & 0x3f))?,
                })
            }
        };
        Ok(Self {
            segment_metadata,
            offset: fields.size(&header)?,
            file_data: fields.rest,
        })
    }

    pub fn offset(&self) -> u64 {
        self.offset
    }

    pub fn file_data(&self) -> &'a [u8] {
        self.file_data
    }

    pub fn segment_metadata(&self) -> Option<&SegmentMetadata<'a>> {
        self.segment_metadata.as_ref()
    }
}
