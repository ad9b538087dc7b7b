//! The lent memory read without the library, by the tables of docs/DECISIONS.md: what it holds, and whether it gives 9.
use crate::core::{HEADER_WORDS, SESSIONS, SESSION_BYTES, SESSION_WORDS, VERSION_WORDS};

pub const FAILED: usize = 1;
pub const WATCHED: usize = 2;
pub const QUEUED: usize = 3;
pub const WATCH_LENGTHS: usize = 4;
pub const WATCH_SEQUENCES: usize = 36;
pub const ARGUMENT_COUNTS: usize = 68;
pub const ARGUMENT_LENGTHS: usize = 132;
pub const WATCH_BYTES: usize = 2048;
pub const QUEUE_BYTES: usize = 8192;
pub const QUEUEABLE: [&[u8]; 11] = [b"GET", b"SET", b"DEL", b"EXISTS", b"MGET", b"MSET", b"INCR", b"INCRBY", b"DECR", b"PING", b"ECHO"];

/// Key, sequence, and a value or a tombstone.
pub type Version = (Vec<u8>, u64, Option<Vec<u8>>);

/// The versions of a store, or `None` where the store gives 9.
pub fn versions(words: &[u64], bytes: &[u8]) -> Option<Vec<Version>> {
    let [count, used, last, most_versions, most_bytes, rows @ ..] = words else { return None };
    let fits = (*most_versions as u128) * VERSION_WORDS as u128 <= rows.len() as u128 && *most_bytes as u128 <= bytes.len() as u128;
    if !fits || most_versions < count || most_bytes < used {
        return None;
    }
    let mut found: Vec<Version> = Vec::new();
    let mut at = 0u128;
    for row in rows.chunks(VERSION_WORDS).take(*count as usize) {
        let (start, key, value, seq) = (row[0], row[1], row[2], row[3]);
        let middle = start as u128 + key as u128;
        let end = middle + value.saturating_sub(1) as u128;
        if start as u128 != at || (*used as u128) < end || *last < seq {
            return None;
        }
        let value = (value != 0).then(|| bytes[middle as usize..end as usize].to_vec());
        found.push((bytes[start as usize..middle as usize].to_vec(), seq, value));
        at = end;
    }
    let ordered = found.windows(2).all(|w| (&w[0].0, !w[0].1) < (&w[1].0, !w[1].1));
    (at == *used as u128 && ordered).then_some(found)
}

/// The pieces of a buffer that have these lengths, or `None` where they pass its end.
fn pieces<'a>(lengths: &[u64], bytes: &'a [u8]) -> Option<Vec<&'a [u8]>> {
    let mut rest = bytes;
    let mut found = Vec::new();
    for &length in lengths {
        if (rest.len() as u64) < length {
            return None;
        }
        let (piece, more) = rest.split_at(length as usize);
        found.push(piece);
        rest = more;
    }
    Some(found)
}

fn watch_ok(words: &[u64], bytes: &[u8], last: u64) -> bool {
    let count = words[WATCHED];
    if 32 < count {
        return false;
    }
    let Some(keys) = pieces(&words[WATCH_LENGTHS..WATCH_LENGTHS + count as usize], &bytes[..WATCH_BYTES]) else { return false };
    keys.windows(2).all(|w| w[0] < w[1]) && words[WATCH_SEQUENCES..WATCH_SEQUENCES + count as usize].iter().all(|&n| n <= last)
}

fn queue_ok(words: &[u64], bytes: &[u8]) -> bool {
    let count = words[QUEUED];
    if 64 < count || (words[0] == 0 && count != 0) {
        return false;
    }
    let counts = &words[ARGUMENT_COUNTS..ARGUMENT_COUNTS + count as usize];
    let arguments: u128 = counts.iter().map(|n| *n as u128).sum();
    if 512 < arguments || counts.contains(&0) {
        return false;
    }
    let lengths = &words[ARGUMENT_LENGTHS..ARGUMENT_LENGTHS + arguments as usize];
    let Some(parts) = pieces(lengths, &bytes[WATCH_BYTES..WATCH_BYTES + QUEUE_BYTES]) else { return false };
    let mut at = 0;
    counts.iter().all(|n| {
        let name = parts[at].to_ascii_uppercase();
        at += *n as usize;
        may_queue(&name, *n - 1)
    })
}

/// Whether a name in capitals may be queued with this many arguments behind it; SET with options may not.
pub fn may_queue(name: &[u8], count: u64) -> bool {
    match name {
        b"GET" | b"INCR" | b"DECR" | b"ECHO" => count == 1,
        b"SET" | b"INCRBY" => count == 2,
        b"MSET" => 2 <= count && count % 2 == 0,
        b"PING" => count <= 1,
        b"DEL" | b"EXISTS" | b"MGET" => 1 <= count,
        _ => false,
    }
}

/// Whether sixteen sessions give no 9 beside a store with this last sequence.
pub fn sessions_ok(words: &[u64], bytes: &[u8], last: u64) -> bool {
    SESSIONS * SESSION_WORDS <= words.len()
        && SESSIONS * SESSION_BYTES <= bytes.len()
        && (0..SESSIONS).all(|i| {
            let w = &words[i * SESSION_WORDS..][..SESSION_WORDS];
            let b = &bytes[i * SESSION_BYTES..][..SESSION_BYTES];
            watch_ok(w, b, last) && queue_ok(w, b)
        })
}

/// The words and bytes of a store that holds these versions.
pub fn store(versions: &[Version], last: u64, words: &mut [u64], bytes: &mut [u8]) {
    let mut at = 0;
    for (i, (key, seq, value)) in versions.iter().enumerate() {
        let length = value.as_ref().map_or(0, |v| v.len() as u64 + 1);
        words[HEADER_WORDS + VERSION_WORDS * i..][..VERSION_WORDS].copy_from_slice(&[at as u64, key.len() as u64, length, *seq]);
        for part in [Some(key), value.as_ref()].into_iter().flatten() {
            bytes[at..at + part.len()].copy_from_slice(part);
            at += part.len();
        }
    }
    words[..3].copy_from_slice(&[versions.len() as u64, at as u64, last]);
}
