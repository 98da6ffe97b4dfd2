//! PDUs, read (CCSDS 727.0-B-5, as document 01 has it). A refusal is its number.

use crate::Id;

/// What a PDU's header says, and its data field.
pub struct Header<'a> {
    pub file_data: bool,
    pub unacknowledged: bool,
    pub large: bool,
    pub segment_metadata: bool,
    pub id_width: usize,
    pub seq_width: usize,
    pub id: Id,
    pub dest: u64,
    pub field: &'a [u8],
}

/// What a PDU is, if a receiver takes such a PDU.
pub enum Kind {
    FileData,
    Eof,
    Metadata,
}

/// A Metadata's fields.
pub struct Metadata<'a> {
    pub closure: bool,
    pub checksum_type: u8,
    pub size: u64,
    pub source_name: &'a [u8],
    pub dest_name: &'a [u8],
    pub message_to_user: bool,
}

/// A big-endian number.
pub fn number(bytes: &[u8]) -> u64 {
    bytes.iter().fold(0, |n, byte| n << 8 | u64::from(*byte))
}

/// The width that three bits stand for.
fn width(bits: u8) -> Result<usize, u8> {
    match bits & 7 {
        0 => Ok(1),
        1 => Ok(2),
        3 => Ok(4),
        7 => Ok(8),
        _ => Err(5),
    }
}

/// Reads a header, with refusals 3 to 6.
pub fn header(pdu: &[u8]) -> Result<Header, u8> {
    if pdu.len() < 4 {
        return Err(3);
    }
    if pdu[0] >> 5 != 1 {
        return Err(4);
    }
    let id_width = width(pdu[3] >> 4)?;
    let seq_width = width(pdu[3])?;
    if pdu[0] & 2 != 0 {
        return Err(6);
    }
    let seq_at = 4 + id_width;
    let dest_at = seq_at + seq_width;
    let field_at = dest_at + id_width;
    let field_len = u16::from_be_bytes([pdu[1], pdu[2]]);
    let field = pdu
        .get(field_at..field_at + usize::from(field_len))
        .ok_or(3)?;
    Ok(Header {
        file_data: pdu[0] & 16 != 0,
        unacknowledged: pdu[0] & 4 != 0,
        large: pdu[0] & 1 != 0,
        segment_metadata: pdu[3] & 8 != 0,
        id_width,
        seq_width,
        id: Id {
            source: number(&pdu[4..seq_at]),
            seq: number(&pdu[seq_at..dest_at]),
        },
        dest: number(&pdu[dest_at..field_at]),
        field,
    })
}

/// What kind a PDU is, with refusals 7, 8 and 10.
pub fn kind(header: &Header) -> Result<Kind, u8> {
    if header.file_data {
        return Ok(Kind::FileData);
    }
    match header.field.first() {
        Some(4) => Ok(Kind::Eof),
        Some(7) => Ok(Kind::Metadata),
        Some(5 | 8 | 12) => Err(8),
        Some(9) => Err(10),
        Some(6) => match header.field.get(1).map(|byte| byte >> 4) {
            Some(4) => Err(8),
            Some(5) => Err(10),
            _ => Err(7),
        },
        _ => Err(7),
    }
}

/// Takes bytes off the front of a field, or refuses with 14.
fn take<'a>(field: &mut &'a [u8], len: usize) -> Result<&'a [u8], u8> {
    if field.len() < len {
        return Err(14);
    }
    let (taken, rest) = field.split_at(len);
    *field = rest;
    Ok(taken)
}

/// Takes a length byte and its bytes.
fn take_counted<'a>(field: &mut &'a [u8]) -> Result<&'a [u8], u8> {
    let len = take(field, 1)?[0];
    take(field, len.into())
}

impl<'a> Header<'a> {
    /// The width of a size or an offset.
    fn size_width(&self) -> usize {
        if self.large {
            8
        } else {
            4
        }
    }

    /// Reads a Metadata's data field to its end.
    pub fn metadata(&self) -> Result<Metadata<'a>, u8> {
        let mut field = self.field;
        take(&mut field, 1)?;
        let flags = take(&mut field, 1)?[0];
        let size = number(take(&mut field, self.size_width())?);
        let source_name = take_counted(&mut field)?;
        let dest_name = take_counted(&mut field)?;
        let mut message_to_user = false;
        while !field.is_empty() {
            message_to_user |= take(&mut field, 1)?[0] == 2;
            take_counted(&mut field)?;
        }
        Ok(Metadata {
            closure: flags & 0x40 != 0,
            checksum_type: flags & 15,
            size,
            source_name,
            dest_name,
            message_to_user,
        })
    }

    /// Reads a segment's offset and bytes.
    pub fn segment(&self) -> Result<(u64, &'a [u8]), u8> {
        let mut field = self.field;
        if self.segment_metadata {
            let count = take(&mut field, 1)?[0] & 63;
            take(&mut field, count.into())?;
        }
        let offset = number(take(&mut field, self.size_width())?);
        Ok((offset, field))
    }

    /// Reads an EOF's checksum and size.
    pub fn eof(&self) -> Result<(u32, u64), u8> {
        if self.field.len() < 2 {
            return Err(14);
        }
        if self.field[1] >> 4 != 0 {
            return Err(10);
        }
        if self.field.len() != 6 + self.size_width() {
            return Err(14);
        }
        Ok((number(&self.field[2..6]) as u32, number(&self.field[6..])))
    }
}
