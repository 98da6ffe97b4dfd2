//! Numbers of 1, 2, 4 or 8 bytes with their width.

use crate::{first, ByteConversionError};

/// A number that is written with a width of its own.
pub trait UnsignedEnum {
    fn size(&self) -> usize;
    fn value(&self) -> u64;
    fn write_to_be_bytes(&self, buf: &mut [u8]) -> Result<usize, ByteConversionError>;
}

/// An entity id or a sequence number: a value and the bytes that it takes on the link.
#[derive(Debug, Clone, Copy, PartialEq, Eq)]
pub struct UnsignedByteField {
    width: usize,
    value: u64,
}

impl UnsignedByteField {
    pub const fn new(width: usize, value: u64) -> Self {
        Self { width, value }
    }

    /// Reads a big-endian number of `width` bytes, at most 8.
    pub fn new_from_be_bytes(width: usize, buf: &[u8]) -> Result<Self, ByteConversionError> {
        let value = first(buf, width)?
            .iter()
            .fold(0, |value, byte| (value << 8) | u64::from(*byte));
        Ok(Self { width, value })
    }
}

impl Default for UnsignedByteField {
    fn default() -> Self {
        Self::new(1, 0)
    }
}

impl UnsignedEnum for UnsignedByteField {
    fn size(&self) -> usize {
        self.width
    }

    fn value(&self) -> u64 {
        self.value
    }

    fn write_to_be_bytes(&self, buf: &mut [u8]) -> Result<usize, ByteConversionError> {
        let found = buf.len();
        let target = buf
            .get_mut(..self.width)
            .ok_or(ByteConversionError::ToSliceTooSmall {
                found,
                expected: self.width,
            })?;
        target.copy_from_slice(&self.value.to_be_bytes()[8 - self.width..]);
        Ok(self.width)
    }
}
