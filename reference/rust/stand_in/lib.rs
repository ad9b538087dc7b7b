//! The store and its server as in the published source, without log, tables and threads.
//! The modules under `src` are unchanged copies; those under `stand_in` take the place of what is left out.

pub mod db;
pub mod error;
pub mod key;
pub mod memtable;
pub mod resp;
pub mod server;

#[path = "../stand_in/manifest.rs"]
pub mod manifest;
#[path = "../stand_in/sstable.rs"]
pub mod sstable;
#[path = "../stand_in/vfs.rs"]
pub mod vfs;
#[path = "../stand_in/wal.rs"]
pub mod wal;

/// An empty store with this last sequence: one memtable that never fills, so `Db::make_room` succeeds without effect, and no thread.
pub fn open_at(last_sequence: u64) -> db::Db {
    manifest::OPEN_AT.with(|cell| cell.set(last_sequence));
    let options = db::Options {
        memtable_size: usize::MAX,
        inline_background: true,
        ..db::Options::default()
    };
    db::Db::open_with("", options).expect("a store without files opens")
}
