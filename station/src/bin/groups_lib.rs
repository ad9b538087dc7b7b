//! Group scripts over the library, for the comparisons of reference/; their form stands in reference/rust/drivers/groups_rust.rs. Three
//! instructions more:
//!
//!   request SESSION ROOM BYTES   one request call with so many reply bytes; answered by number, bytes used and reply
//!   preview SESSION ROOM         a preview; answered by number, verdict, last sequence and reply
//!   sequence SESSION NUMBER      sets the sequence of the session's first watched key in the lent words
//!
//! BYTES and a reply are lower-case hexadecimal, no reply is `-`. After a preview store and sessions must be as they were, byte for byte, and
//! behind a reply the buffer must be zero; otherwise the program fails.
use station::core::{self, Memory, SESSION_WORDS};
use station::frames::hex;
use station::groups::{lent, Plain};
use station::layout::{versions, WATCH_SEQUENCES};
use station::previews::Told;
use std::io::{self, BufRead, BufWriter, Write};

fn bytes(text: &str) -> Vec<u8> {
    let (hex, times) = text.split_once('*').unwrap_or((text, "1"));
    let once: Vec<u8> = (0..hex.len() / 2).map(|i| u8::from_str_radix(&hex[2 * i..2 * i + 2], 16).expect("hexadecimal")).collect();
    once.repeat(times.parse().expect("a count"))
}

fn text(bytes: &[u8]) -> String {
    if 32 < bytes.len() && bytes.iter().all(|b| *b == bytes[0]) {
        return format!("{:02x}*{}", bytes[0], bytes.len());
    }
    hex(bytes)
}

fn shown(reply: &[u8]) -> String {
    if reply.is_empty() { "-".to_string() } else { hex(reply) }
}

fn member(words: &[&str]) -> Plain {
    let mut made = Plain { read: words[0].parse().ok(), ..Plain::default() };
    for part in &words[1..] {
        let (kind, rest) = part.split_at(1);
        match kind {
            "+" => {
                let (key, value) = rest.split_once('=').expect("key and value");
                made.writes.push((bytes(key), Some(bytes(value))));
            }
            "-" => made.writes.push((bytes(rest), None)),
            "?" => made.checks.push(bytes(rest)),
            _ => panic!("no such part: {part}"),
        }
    }
    made
}

/// A store and sixteen sessions in lent memory.
struct Calls(Memory);

impl Calls {
    fn open(last: u64, versions: usize, size: usize) -> Calls {
        let mut memory = Memory::zeros(5 + 4 * versions, size, 64, 0);
        assert_eq!(core::open(&mut memory.words, &memory.bytes, last, versions, size), 0);
        Calls(memory)
    }

    /// A reply buffer of so many bytes, none of them zero.
    fn lend_reply(&mut self, room: usize) {
        self.0.reply = vec![170; room];
    }

    fn request(&mut self, session: usize, input: &[u8]) -> String {
        let answer = self.0.request(session, input);
        let (reply, behind) = self.0.reply.split_at(answer.reply);
        assert!(behind.iter().all(|b| *b == 0), "bytes behind a reply");
        format!("{} {} {}", answer.number, answer.used, shown(reply))
    }

    fn preview(&mut self, session: usize) -> String {
        let kept = self.0.clone();
        let Told { previewed, reply } = Told::new(self.0.preview(session), &self.0, &kept);
        format!("{} {} {} {}", previewed.number, previewed.verdict, previewed.last, shown(&reply))
    }

    fn group(&mut self, members: &[Plain]) -> String {
        let group = lent(members);
        let mut verdicts = vec![0; members.len()];
        let number = core::group(&group.members, &group.parts, &group.data, &mut verdicts, &mut self.0.words, &mut self.0.bytes);
        match (number, verdicts.is_empty()) {
            (0, true) => "none".to_string(),
            (0, false) => verdicts.iter().map(u8::to_string).collect::<Vec<_>>().join(" "),
            _ => format!("!{number}"),
        }
    }

    fn show(&self) -> String {
        let mut shown = self.0.words[2].to_string();
        for (key, seq, value) in versions(&self.0.words, &self.0.bytes).expect("a good store") {
            shown += &format!(" {}@{seq}", text(&key));
            if let Some(value) = value {
                shown += &format!("={}", text(&value));
            }
        }
        shown
    }
}

fn main() -> io::Result<()> {
    let mut calls = Calls::open(0, 1024, 32_768);
    let mut members = Vec::new();
    let mut out = BufWriter::new(io::stdout().lock());
    for line in io::stdin().lock().lines() {
        let line = line?;
        let words: Vec<&str> = line.split(' ').collect();
        let count = |i: usize| words[i].parse().expect("a count");
        match words[0] {
            "open" => {
                calls = Calls::open(words[1].parse().expect("a last sequence"), count(2), count(3));
                members.clear();
            }
            "request" => {
                calls.lend_reply(count(2));
                writeln!(out, "{}", calls.request(count(1), &bytes(words[3])))?;
            }
            "preview" => {
                calls.lend_reply(count(2));
                writeln!(out, "{}", calls.preview(count(1)))?;
            }
            "sequence" => calls.0.session_words[count(1) * SESSION_WORDS + WATCH_SEQUENCES] = words[2].parse().expect("a sequence"),
            "member" => members.push(member(&words[1..])),
            "group" => writeln!(out, "{}", calls.group(&std::mem::take(&mut members)))?,
            "versions" => writeln!(out, "{}", calls.show())?,
            other => panic!("no such instruction: {other}"),
        }
    }
    out.flush()
}
