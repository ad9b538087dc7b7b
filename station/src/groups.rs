//! Groups: their words for the library, and their verdicts by document 01 on a plain list of versions.
use crate::core::Member;
use crate::layout::Version;
use std::collections::BTreeSet;

/// A member as a value: read sequence, writes, checked keys.
#[derive(Clone, Debug, Default)]
pub struct Plain {
    pub read: Option<u64>,
    pub writes: Vec<(Vec<u8>, Option<Vec<u8>>)>,
    pub checks: Vec<Vec<u8>>,
}

/// A group as it is lent: members, table of parts, data.
#[derive(Clone, Debug, Default)]
pub struct Group {
    pub members: Vec<Member>,
    pub parts: Vec<u64>,
    pub data: Vec<u8>,
}

fn put(data: &mut Vec<u8>, bytes: &[u8]) -> u64 {
    let start = data.len() as u64;
    data.extend_from_slice(bytes);
    start
}

/// The group in lent form: the rows of all writes stand first, those of the checked keys behind them.
pub fn lent(group: &[Plain]) -> Group {
    let mut made = Group::default();
    let mut writes = 0;
    for member in group {
        for (key, value) in &member.writes {
            let key_start = put(&mut made.data, key);
            let value_start = value.as_ref().map_or(0, |v| put(&mut made.data, v));
            let word = value.as_ref().map_or(0, |v| v.len() as u64 + 1);
            made.parts.extend([key_start, key.len() as u64, value_start, word]);
        }
        made.members.push(Member { has_read: u64::from(member.read.is_some()), read: member.read.unwrap_or(0), first_write: writes, writes: member.writes.len(), first_check: 0, checks: member.checks.len() });
        writes += member.writes.len();
    }
    let mut checks = 2 * writes;
    for (member, plain) in made.members.iter_mut().zip(group) {
        member.first_check = checks;
        checks += plain.checks.len();
        for key in &plain.checks {
            let start = put(&mut made.data, key);
            made.parts.extend([start, key.len() as u64]);
        }
    }
    made
}

/// A store as a list of versions in order.
#[derive(Clone, Debug)]
pub struct Store {
    pub versions: Vec<Version>,
    pub last: u64,
    pub most_versions: usize,
    pub most_bytes: usize,
}

fn size(member: &Plain) -> usize {
    member.writes.iter().map(|(k, v)| k.len() + v.as_ref().map_or(0, Vec::len)).sum()
}

impl Store {
    fn newest(&self, key: &[u8]) -> u64 {
        self.versions.iter().filter(|v| v.0 == key).map(|v| v.1).max().unwrap_or(0)
    }

    fn used(&self) -> usize {
        self.versions.iter().map(|(k, _, v)| k.len() + v.as_ref().map_or(0, Vec::len)).sum()
    }

    fn verdict(&self, member: &Plain, written: &BTreeSet<Vec<u8>>) -> u8 {
        let keys = || member.writes.iter().map(|w| &w.0).chain(&member.checks);
        if let Some(read) = member.read {
            if keys().any(|k| written.contains(k) || read < self.newest(k)) {
                return 1;
            }
        }
        if self.most_versions < self.versions.len() + member.writes.len() || self.most_bytes < self.used() + size(member) {
            return 6;
        }
        if u64::MAX - self.last < member.writes.len() as u64 {
            return 7;
        }
        0
    }

    /// Judges the members and commits the accepted ones: a verdict for each.
    pub fn judge(&mut self, group: &[Plain]) -> Vec<u8> {
        let mut verdicts = Vec::new();
        let mut written = BTreeSet::new();
        let mut total = 0;
        let mut taking = true;
        for (i, member) in group.iter().enumerate() {
            total += size(member);
            taking = i == 0 || taking && total <= 1_048_576;
            if !taking {
                verdicts.push(255);
                continue;
            }
            let verdict = self.verdict(member, &written);
            verdicts.push(verdict);
            if verdict == 0 {
                for (key, value) in &member.writes {
                    self.last += 1;
                    self.versions.push((key.clone(), self.last, value.clone()));
                    written.insert(key.clone());
                }
                self.versions.sort_by(|a, b| (&a.0, !a.1).cmp(&(&b.0, !b.1)));
            }
        }
        verdicts
    }
}
