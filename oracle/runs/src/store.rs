//! The store lent to the Rust: one file, kept by the original `NativeFilestore`, with a bound on its length.

use crate::rules::{Rule, Rules};
use satrs::cfdp::filestore::{FilestoreError, NativeFilestore, VirtualFilestore};
use spacepackets::cfdp::ChecksumType;
use std::cell::Cell;
use std::fs;
use std::io::{Seek, SeekFrom};
use std::path::{Path, PathBuf};
use std::rc::Rc;

/// What the store said when it was last asked to verify a checksum.
#[derive(Debug, Clone, Copy, PartialEq, Eq)]
pub enum Verdict {
    Match,
    Mismatch,
    Unsupported,
}

/// The directory that holds the one file; it is removed with this value.
pub struct Place {
    dir: PathBuf,
    file: String,
}

impl Place {
    /// Makes an empty directory below the system's one for temporary files, on a file system that takes any seek
    /// below 2^63.
    pub fn new() -> Result<Self, String> {
        let dir = std::env::temp_dir().join(format!("cfdp-oracle-{}", std::process::id()));
        let file = dir
            .join("file")
            .to_str()
            .ok_or("TMPDIR is not UTF-8")?
            .to_string();
        let place = Self { dir, file };
        fs::create_dir(&place.dir).map_err(|e| format!("{}: {e}", place.dir.display()))?;
        let mut probe = fs::File::create(&place.file).map_err(|e| e.to_string())?;
        let seek = probe.seek(SeekFrom::Start(i64::MAX as u64));
        seek.map_err(|_| {
            "TMPDIR is on a file system with a small limit; name a tmpfs, as /dev/shm"
        })?;
        place.clear();
        Ok(place)
    }

    /// Takes the file away.
    pub fn clear(&self) {
        let _ = fs::remove_file(&self.file);
    }

    /// The file's bytes; none where there is no file.
    pub fn contents(&self) -> Vec<u8> {
        fs::read(&self.file).unwrap_or_default()
    }
}

impl Drop for Place {
    fn drop(&mut self) {
        let _ = fs::remove_dir_all(&self.dir);
    }
}

/// What the store tells of the current call.
#[derive(Default)]
pub struct Watch {
    pub verdict: Cell<Option<Verdict>>,
    /// A removal that the rule `discard` left out.
    pub spared: Cell<bool>,
}

/// One file of at most `len` bytes, whatever name it is called by. It has no directories.
pub struct OneFileStore {
    pub native: NativeFilestore,
    pub place: Rc<Place>,
    pub len: u64,
    pub rules: Rc<Rules>,
    pub watch: Rc<Watch>,
}

/// The error of a write that does not fit.
fn no_room() -> FilestoreError {
    FilestoreError::Io {
        raw_errno: None,
        string: "segment does not fit the store".to_string(),
    }
}

impl VirtualFilestore for OneFileStore {
    fn create_file(&self, _: &str) -> Result<(), FilestoreError> {
        self.native.create_file(&self.place.file)
    }

    /// Removes the file, but not after an unsupported checksum type (rule `discard`).
    fn remove_file(&self, _: &str) -> Result<(), FilestoreError> {
        let delivered = self.watch.verdict.get() == Some(Verdict::Unsupported);
        if delivered && self.rules.apply(Rule::Discard) {
            self.watch.spared.set(true);
            return Ok(());
        }
        self.native.remove_file(&self.place.file)
    }

    fn truncate_file(&self, _: &str) -> Result<(), FilestoreError> {
        self.native.truncate_file(&self.place.file)
    }

    fn remove_dir(&self, _: &str, _: bool) -> Result<(), FilestoreError> {
        Err(FilestoreError::IsNotDirectory)
    }

    fn create_dir(&self, _: &str) -> Result<(), FilestoreError> {
        Err(FilestoreError::FileAlreadyExists)
    }

    fn read_data(
        &self,
        _: &str,
        offset: u64,
        read_len: u64,
        buf: &mut [u8],
    ) -> Result<(), FilestoreError> {
        self.native
            .read_data(&self.place.file, offset, read_len, buf)
    }

    /// Writes what fits. An empty write goes to the original too, whose seek fails at 2^63 (rule `empty-seek`).
    fn write_data(&self, _: &str, offset: u64, buf: &[u8]) -> Result<(), FilestoreError> {
        if buf.is_empty() && i64::try_from(offset).is_err() && self.rules.apply(Rule::EmptySeek) {
            return Ok(());
        }
        let end = offset.checked_add(buf.len() as u64);
        if !buf.is_empty() && end.map_or(true, |end| end > self.len) {
            return Err(no_room());
        }
        self.native.write_data(&self.place.file, offset, buf)
    }

    fn is_file(&self, _: &str) -> bool {
        true
    }

    fn exists(&self, _: &str) -> bool {
        Path::new(&self.place.file).exists()
    }

    /// Verifies by the original; type 3 counts as unsupported (rule `type-3`).
    fn checksum_verify(
        &self,
        _: &str,
        checksum_type: ChecksumType,
        expected_checksum: u32,
        verification_buf: &mut [u8],
    ) -> Result<bool, FilestoreError> {
        let verified = if checksum_type == ChecksumType::Crc32 && self.rules.apply(Rule::Type3) {
            Err(FilestoreError::ChecksumTypeNotImplemented(checksum_type))
        } else {
            let file = &self.place.file;
            self.native
                .checksum_verify(file, checksum_type, expected_checksum, verification_buf)
        };
        self.watch.verdict.set(match &verified {
            Ok(true) => Some(Verdict::Match),
            Ok(false) => Some(Verdict::Mismatch),
            Err(FilestoreError::ChecksumTypeNotImplemented(_)) => Some(Verdict::Unsupported),
            Err(_) => None,
        });
        verified
    }
}
