//! A store in memory for the original: one file, whatever name it is called by.

use satrs::cfdp::filestore::{FilestoreError, VirtualFilestore};
use spacepackets::cfdp::ChecksumType;
use std::cell::{Cell, RefCell};
use std::rc::Rc;

/// One file of at most `limit` bytes. There are no directories.
pub struct MemoryStore {
    pub file: Rc<RefCell<Vec<u8>>>,
    pub there: Cell<bool>,
    pub limit: usize,
}

/// The error of a write that does not fit.
fn no_room() -> FilestoreError {
    FilestoreError::Io {
        raw_errno: None,
        string: "segment does not fit the store".to_string(),
    }
}

impl VirtualFilestore for MemoryStore {
    fn create_file(&self, _: &str) -> Result<(), FilestoreError> {
        self.there.set(true);
        self.file.borrow_mut().clear();
        Ok(())
    }

    fn remove_file(&self, _: &str) -> Result<(), FilestoreError> {
        self.there.set(false);
        self.file.borrow_mut().clear();
        Ok(())
    }

    fn truncate_file(&self, _: &str) -> Result<(), FilestoreError> {
        self.file.borrow_mut().clear();
        Ok(())
    }

    fn remove_dir(&self, _: &str, _: bool) -> Result<(), FilestoreError> {
        Err(FilestoreError::IsNotDirectory)
    }

    fn create_dir(&self, _: &str) -> Result<(), FilestoreError> {
        Err(FilestoreError::FileAlreadyExists)
    }

    fn read_data(
        &self,
        _: &str,
        offset: u64,
        read_len: u64,
        buf: &mut [u8],
    ) -> Result<(), FilestoreError> {
        let file = self.file.borrow();
        let read = file.get(offset as usize..(offset + read_len) as usize);
        let read = read.ok_or(FilestoreError::FileDoesNotExist)?;
        buf[..read.len()].copy_from_slice(read);
        Ok(())
    }

    fn write_data(&self, _: &str, offset: u64, buf: &[u8]) -> Result<(), FilestoreError> {
        if buf.is_empty() {
            return Ok(());
        }
        let end = offset.checked_add(buf.len() as u64).ok_or_else(no_room)?;
        if end > self.limit as u64 {
            return Err(no_room());
        }
        let end = end as usize;
        let mut file = self.file.borrow_mut();
        if file.len() < end {
            file.resize(end, 0);
        }
        file[end - buf.len()..end].copy_from_slice(buf);
        Ok(())
    }

    fn is_file(&self, _: &str) -> bool {
        true
    }

    fn exists(&self, _: &str) -> bool {
        self.there.get()
    }

    fn checksum_verify(
        &self,
        _: &str,
        checksum_type: ChecksumType,
        expected_checksum: u32,
        _: &mut [u8],
    ) -> Result<bool, FilestoreError> {
        match checksum_type {
            ChecksumType::Modular => {
                Ok(plain::modular_checksum(&self.file.borrow()) == expected_checksum)
            }
            ChecksumType::NullChecksum => Ok(true),
            _ => Err(FilestoreError::ChecksumTypeNotImplemented(checksum_type)),
        }
    }
}
