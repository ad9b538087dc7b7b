//! A write group handed over whole: the steps of `Db::commit` for its leader, with all members queued before it leads.
//! A child of `db`, so that it can use the private `State` and `Pending`.

use std::sync::{Arc, Condvar};

use super::batch::{check_conflicts, Pending};
use super::Db;
use crate::error::{Error, Result};
use crate::key::SeqNo;
use crate::memtable::Entry;
use crate::wal::Record;

pub struct Member {
    pub read_seq: Option<SeqNo>,
    pub ops: Vec<Record>,
    pub also_check: Vec<Vec<u8>>,
}

/// What became of a member: 0 accepted, 1 conflict, 255 not taken.
pub type Verdict = u8;

fn verdict_of(result: Result<()>) -> Verdict {
    match result {
        Ok(()) => 0,
        Err(Error::Conflict(_)) => 1,
        Err(e) => panic!("{e}"),
    }
}

impl Db {
    /// One group. The Rust never meets a group of no members, so that one does nothing here.
    pub fn group(&self, members: Vec<Member>) -> Vec<Verdict> {
        if members.is_empty() {
            return Vec::new();
        }
        let mut st = self.lock();
        let first_ticket = st.next_ticket;
        let count = members.len() as u64;
        for m in members {
            let ticket = st.next_ticket;
            st.next_ticket += 1;
            let pending = Pending {
                ops: m.ops,
                read_seq: m.read_seq,
                also_check: m.also_check,
            };
            st.queue
                .push_back((ticket, pending, Arc::new(Condvar::new())));
        }
        let (mut st, room) = self.make_room(st);
        room.expect("room");
        let (group, _) = st.take_group();
        let first_seq = st.last_seq + 1;
        let verdicts = check_conflicts(&Arc::clone(&st.current), &group);
        let leader = st.finish_group(group, verdicts, first_seq, Ok(()));
        st.finished.insert(first_ticket, leader);
        st.queue.clear();
        (first_ticket..first_ticket + count)
            .map(|ticket| st.finished.remove(&ticket).map_or(255, verdict_of))
            .collect()
    }

    /// Every version, in order, and the last sequence.
    pub fn versions(&self) -> (SeqNo, Vec<(Vec<u8>, SeqNo, Option<Vec<u8>>)>) {
        let st = self.lock();
        let versions = st.current.mem.iter().map(|e| {
            let value = match e.value() {
                Entry::Value(v) => Some(v.clone()),
                Entry::Tombstone => None,
            };
            (e.key().user_key.clone(), e.key().seq, value)
        });
        (st.last_seq, versions.collect())
    }
}
