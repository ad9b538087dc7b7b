//! Group scripts over the published Rust (`take_group`, `check_conflicts`, `finish_group`). One instruction a line:
//!
//!   open LAST VERSIONS BYTES   a new empty store; the Rust has no capacities and passes over the last two
//!   member READ PART..         a member of the next group; READ is its read sequence, or `-` for none
//!   group                      hands over the members since the last group; answered by their verdicts
//!   versions                   answered by the last sequence and every version, in order
//!
//! A PART is `+KEY=VALUE` (put), `-KEY` (delete) or `?KEY` (checked key). Keys and values are lower-case hexadecimal; `HEX*N` is
//! that text N times. Answers show a value of more than 32 equal bytes as `HH*N`. The verdicts are 0, 1 and 255, or `none`; 6, 7
//! and number 8 are limits that the Rust does not have. A version is KEY@SEQUENCE=VALUE, a tombstone KEY@SEQUENCE.

use std::io::{self, BufRead, BufWriter, Write};

use lsmkv::db::group::Member;
use lsmkv::wal::Record;

fn bytes(text: &str) -> Vec<u8> {
    let (hex, times) = match text.split_once('*') {
        Some((hex, times)) => (hex, times.parse().expect("a count")),
        None => (text, 1),
    };
    let once: Vec<u8> = (0..hex.len() / 2)
        .map(|i| u8::from_str_radix(&hex[2 * i..2 * i + 2], 16).expect("hexadecimal"))
        .collect();
    once.repeat(times)
}

fn text(bytes: &[u8]) -> String {
    if bytes.len() > 32 && bytes.iter().all(|b| *b == bytes[0]) {
        return format!("{:02x}*{}", bytes[0], bytes.len());
    }
    bytes.iter().map(|b| format!("{b:02x}")).collect()
}

fn member(words: &[&str]) -> Member {
    let mut m = Member {
        read_seq: match words[0] {
            "-" => None,
            n => Some(n.parse().expect("a read sequence")),
        },
        ops: Vec::new(),
        also_check: Vec::new(),
    };
    for part in &words[1..] {
        let (kind, rest) = part.split_at(1);
        match kind {
            "+" => {
                let (key, value) = rest.split_once('=').expect("key and value");
                m.ops.push(Record::Put {
                    key: bytes(key),
                    value: bytes(value),
                });
            }
            "-" => m.ops.push(Record::Delete { key: bytes(rest) }),
            "?" => m.also_check.push(bytes(rest)),
            _ => panic!("no such part: {part}"),
        }
    }
    m
}

fn main() -> io::Result<()> {
    let mut db = lsmkv::open_at(0);
    let mut members = Vec::new();
    let mut out = BufWriter::new(io::stdout().lock());
    for line in io::stdin().lock().lines() {
        let line = line?;
        let words: Vec<&str> = line.split(' ').collect();
        match words[0] {
            "open" => {
                db = lsmkv::open_at(words[1].parse().expect("a last sequence"));
                members.clear();
            }
            "member" => members.push(member(&words[1..])),
            "group" => {
                let verdicts = db.group(std::mem::take(&mut members));
                let shown: Vec<String> = verdicts.iter().map(u8::to_string).collect();
                match shown.is_empty() {
                    true => writeln!(out, "none")?,
                    false => writeln!(out, "{}", shown.join(" "))?,
                }
            }
            "versions" => {
                let (last, versions) = db.versions();
                write!(out, "{last}")?;
                for (key, seq, value) in versions {
                    write!(out, " {}@{seq}", text(&key))?;
                    if let Some(value) = value {
                        write!(out, "={}", text(&value))?;
                    }
                }
                writeln!(out)?;
            }
            other => panic!("no such instruction: {other}"),
        }
    }
    out.flush()
}
