//! The Metadata PDU.

use super::{header_and_data_field, CfdpPdu, FieldReader, FileDirectiveType, PduError, PduHeader};
use crate::cfdp::tlv::Tlv;
use crate::cfdp::ChecksumType;

/// The fields of a Metadata PDU but for names and options.
#[derive(Debug, Clone, Copy, PartialEq, Eq, Default)]
pub struct MetadataGenericParams {
    pub closure_requested: bool,
    pub checksum_type: ChecksumType,
    pub file_size: u64,
}

/// A name: a length byte and its bytes.
#[derive(Debug, Clone, Copy, PartialEq, Eq)]
pub struct Lv<'a> {
    value: &'a [u8],
}

impl<'a> Lv<'a> {
    pub fn value(&self) -> &'a [u8] {
        self.value
    }

    pub fn len_value(&self) -> usize {
        self.value.len()
    }

    pub fn is_empty(&self) -> bool {
        self.value.is_empty()
    }
}

/// A Metadata PDU whose options are known to be whole.
#[derive(Debug, Clone, Copy)]
pub struct MetadataPduReader<'a> {
    pdu_header: PduHeader,
    metadata_params: MetadataGenericParams,
    src_file_name: Lv<'a>,
    dest_file_name: Lv<'a>,
    options: &'a [u8],
}

impl<'a> MetadataPduReader<'a> {
    pub fn from_bytes(buf: &'a [u8]) -> Result<Self, PduError> {
        let (pdu_header, data_field) = header_and_data_field(buf)?;
        let mut fields = FieldReader { rest: data_field };
        fields.take(1)?;
        let flags = fields.number(1)? as u8;
        let metadata_params = MetadataGenericParams {
            closure_requested: flags & 0x40 != 0,
            checksum_type: ChecksumType::from(flags & 0x0f),
            file_size: fields.size(&pdu_header)?,
        };
        let src_file_name = Lv {
            value: fields.counted()?,
        };
        let dest_file_name = Lv {
            value: fields.counted()?,
        };
        let options = fields.rest;
        while !fields.rest.is_empty() {
            fields.take(1)?;
            fields.counted()?;
        }
        Ok(Self {
            pdu_header,
            metadata_params,
            src_file_name,
            dest_file_name,
            options,
        })
    }

    pub fn metadata_params(&self) -> &MetadataGenericParams {
        &self.metadata_params
    }

    pub fn src_file_name(&self) -> Lv<'a> {
        self.src_file_name
    }

    pub fn dest_file_name(&self) -> Lv<'a> {
        self.dest_file_name
    }

    pub fn options(&self) -> &'a [u8] {
        self.options
    }

    /// The options in order, or nothing where there is none.
    pub fn options_iter(&self) -> Option<OptionsIter<'a>> {
        Some(OptionsIter { rest: self.options }).filter(|options| !options.rest.is_empty())
    }
}

impl CfdpPdu for MetadataPduReader<'_> {
    fn pdu_header(&self) -> &PduHeader {
        &self.pdu_header
    }

    fn file_directive_type(&self) -> Option<FileDirectiveType> {
        Some(FileDirectiveType::MetadataPdu)
    }
}

/// Walks the options of a Metadata PDU.
#[derive(Debug, Clone, Copy)]
pub struct OptionsIter<'a> {
    rest: &'a [u8],
}

impl<'a> Iterator for OptionsIter<'a> {
    type Item = Tlv<'a>;

    fn next(&mut self) -> Option<Tlv<'a>> {
        let option = Tlv::from_bytes(self.rest).ok()?;
        self.rest = &self.rest[option.len_full()..];
        Some(option)
    }
}
