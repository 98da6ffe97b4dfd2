//! Stand-in for the crate `spacepackets`: the types and readers that satrs' `cfdp` module uses, written from the
//! layout of CCSDS 727.0-B-5 as document 01 gives it. What it reads and refuses is not the crate's behaviour.

pub mod cfdp;
pub mod util;

use std::fmt;

/// A buffer that is too small for what is read from it or written to it.
#[derive(Debug, Clone, Copy, PartialEq, Eq)]
pub enum ByteConversionError {
    ToSliceTooSmall { found: usize, expected: usize },
    FromSliceTooSmall { found: usize, expected: usize },
}

impl fmt::Display for ByteConversionError {
    fn fmt(&self, f: &mut fmt::Formatter<'_>) -> fmt::Result {
        match self {
            Self::ToSliceTooSmall { found, expected } => {
                write!(f, "target slice too small: {found} of {expected} bytes")
            }
            Self::FromSliceTooSmall { found, expected } => {
                write!(f, "source slice too small: {found} of {expected} bytes")
            }
        }
    }
}

impl std::error::Error for ByteConversionError {}

/// The first `len` bytes, or the error that says how many there are.
pub(crate) fn first(bytes: &[u8], len: usize) -> Result<&[u8], ByteConversionError> {
    bytes
        .get(..len)
        .ok_or(ByteConversionError::FromSliceTooSmall {
            found: bytes.len(),
            expected: len,
        })
}
