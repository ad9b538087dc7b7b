//! Stand-in for tables: there are none, so a reader of one has no value.

use std::path::Path;
use std::sync::atomic::{AtomicU64, Ordering};
use std::sync::Arc;

use crate::error::{Error, Result};
use crate::key::SeqNo;
use crate::memtable::{Entry, ScanEntry};
use crate::vfs::Fs;

pub const DEFAULT_BLOCK_SIZE: usize = 4096;

pub mod filter {
    pub const DEFAULT_BITS_PER_KEY: usize = 10;
}

pub struct WriterOptions {
    pub block_size: usize,
    pub bloom_bits_per_key: usize,
}

#[derive(Default)]
pub struct BlockCache;

impl BlockCache {
    pub fn used(&self) -> usize {
        0
    }
}

#[derive(Default)]
pub struct ReadStats {
    pub block_reads: AtomicU64,
    pub cache_hits: AtomicU64,
    pub filter_negatives: AtomicU64,
    pub filter_false_positives: AtomicU64,
}

impl ReadStats {
    pub fn get(counter: &AtomicU64) -> u64 {
        counter.load(Ordering::Relaxed)
    }
}

#[derive(Default)]
pub struct ReadContext {
    pub cache: BlockCache,
    pub stats: ReadStats,
}

impl ReadContext {
    pub fn new(_cache_bytes: usize) -> Self {
        Self::default()
    }
}

pub enum SstReader {}

impl SstReader {
    pub fn open_in(_fs: &dyn Fs, _path: &Path, id: u64, _ctx: Arc<ReadContext>) -> Result<Self> {
        Err(Error::Corruption(format!("there is no table {id}")))
    }

    pub fn smallest_key(&self) -> Option<&[u8]> {
        match *self {}
    }

    pub fn largest_key(&self) -> Option<&[u8]> {
        match *self {}
    }

    pub fn get_versioned(&self, _key: &[u8], _snapshot: SeqNo) -> Result<Option<(SeqNo, Entry)>> {
        match *self {}
    }

    pub fn file_size(&self) -> u64 {
        match *self {}
    }

    pub fn entry_count(&self) -> usize {
        match *self {}
    }

    pub fn iter(&self, _start: Option<&[u8]>) -> Result<SstIter> {
        match *self {}
    }
}

pub enum SstIter {}

impl Iterator for SstIter {
    type Item = Result<ScanEntry>;

    fn next(&mut self) -> Option<Self::Item> {
        match *self {}
    }
}
