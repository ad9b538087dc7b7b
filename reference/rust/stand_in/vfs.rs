//! Stand-in for the file system: it holds no file.

use std::fmt;
use std::io;
use std::path::{Path, PathBuf};
use std::sync::Arc;

pub trait Fs: Send + Sync + fmt::Debug {
    fn create_dir_all(&self, _dir: &Path) -> io::Result<()> {
        Ok(())
    }

    fn list(&self, _dir: &Path) -> io::Result<Vec<PathBuf>> {
        Ok(Vec::new())
    }

    fn remove(&self, _path: &Path) -> io::Result<()> {
        Ok(())
    }

    fn sync_dir(&self, _dir: &Path) -> io::Result<()> {
        Ok(())
    }

    fn open_append(&self, _path: &Path) -> io::Result<NoFile> {
        Ok(NoFile)
    }
}

#[derive(Debug)]
pub struct RealFs;

impl RealFs {
    pub fn shared() -> Arc<dyn Fs> {
        Arc::new(RealFs)
    }
}

impl Fs for RealFs {}

#[derive(Debug)]
pub struct NoFile;

impl NoFile {
    pub fn set_len(&mut self, _len: u64) -> io::Result<()> {
        Ok(())
    }

    pub fn sync(&self) -> io::Result<()> {
        Ok(())
    }
}
