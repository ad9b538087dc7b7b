//! Stand-in for the write-ahead log: `Record` is the published one, and what is appended is dropped.

use std::path::Path;

use crate::error::Result;
use crate::key::SeqNo;
use crate::vfs::{Fs, NoFile};

pub const KIND_PUT: u8 = 1;
pub const KIND_DELETE: u8 = 2;

#[derive(Debug, Clone, PartialEq, Eq)]
pub enum Record {
    Put { key: Vec<u8>, value: Vec<u8> },
    Delete { key: Vec<u8> },
}

impl Record {
    pub fn key(&self) -> &[u8] {
        match self {
            Record::Put { key, .. } | Record::Delete { key } => key,
        }
    }

    /// Key plus value bytes: what a write costs the user, before encoding.
    pub fn size(&self) -> usize {
        let (_, key, value) = self.parts();
        key.len() + value.len()
    }

    /// Kind byte, key and value (empty for a delete), as they're encoded.
    fn parts(&self) -> (u8, &[u8], &[u8]) {
        match self {
            Record::Put { key, value } => (KIND_PUT, key, value),
            Record::Delete { key } => (KIND_DELETE, key, &[]),
        }
    }
}

#[derive(Debug, Default)]
pub struct Replay {
    pub records: Vec<(SeqNo, Record)>,
    pub valid_len: u64,
    pub file_len: u64,
}

pub struct Wal;

impl Wal {
    pub fn open_in(_fs: &dyn Fs, _path: &Path) -> Result<Self> {
        Ok(Wal)
    }

    pub fn replay_in(_fs: &dyn Fs, _path: &Path) -> Result<Replay> {
        Ok(Replay::default())
    }

    pub fn append_batch(&mut self, _first_seq: SeqNo, _ops: &[Record]) -> Result<()> {
        Ok(())
    }

    pub fn flush(&mut self) -> Result<()> {
        Ok(())
    }

    pub fn sync(&mut self) -> Result<()> {
        Ok(())
    }

    pub fn sync_handle(&mut self) -> Result<NoFile> {
        Ok(NoFile)
    }

    pub fn sync_count(&self) -> u64 {
        0
    }
}
