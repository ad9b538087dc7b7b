//! The lines of `frames` over the library: a session and hexadecimal in, the hexadecimal of the replies out. A preview stands before each
//! EXEC, and now and then before another request, and is held to EXEC.
use crate::core::{at_front, Done, Memory, Registry, SESSIONS};
use crate::previews::{Told, EXEC};
use std::collections::BTreeMap;

pub const LIMIT: usize = 4096;
/// Of so many calls one has a preview before it, whatever it asks.
const CALLS_OF_A_PREVIEW: u64 = 16;

/// Sixteen sessions with the bytes that each has not finished.
pub struct Frames {
    registry: Registry,
    held: Vec<Vec<u8>>,
    limit: usize,
    pub calls: u64,
    /// Memory for copies.
    kept: Memory,
    /// How often a preview told each verdict, before EXEC and on a copy.
    pub previews: BTreeMap<u64, u64>,
}

impl Frames {
    pub fn open(versions: usize, size: usize, arguments: usize, most_reply: usize, limit: usize) -> Frames {
        let registry = Registry::open(0, versions, size, arguments, most_reply).expect("capacities that fit");
        Frames { registry, held: vec![Vec::new(); SESSIONS], limit, calls: 0, kept: Memory::zeros(0, 0, 0, 0), previews: BTreeMap::new() }
    }

    /// The preview before EXEC, which is to come true; of one before another request, EXEC on a copy is the yardstick.
    fn preview(&mut self, session: usize, input: &[u8]) -> Option<Told> {
        let is_exec = at_front(&EXEC, input).is_some();
        if !is_exec && self.calls % CALLS_OF_A_PREVIEW != 0 {
            return None;
        }
        self.kept.copy(self.registry.memory());
        let previewed = self.registry.preview(session).0;
        let told = Told::new(previewed, self.registry.memory(), &self.kept);
        *self.previews.entry(previewed.verdict).or_default() += 1;
        if is_exec {
            return Some(told);
        }
        self.kept.reply.resize(self.registry.memory().reply.len(), 0);
        told.must_come_true_on(&mut self.kept, session);
        None
    }

    /// The replies to a frame, and the mark behind them.
    pub fn frame(&mut self, session: usize, bytes: &[u8]) -> (Vec<u8>, String) {
        if SESSIONS <= session {
            self.calls += 1;
            return match self.registry.request(session, bytes) {
                Done::Refused(number) => (Vec::new(), format!("!{number}")),
                _ => (Vec::new(), "session above 15 was answered".to_string()),
            };
        }
        let mut held = std::mem::take(&mut self.held[session]);
        held.extend_from_slice(bytes);
        let mut replies = Vec::new();
        let mut at = 0;
        while at < held.len() {
            self.calls += 1;
            let told = self.preview(session, &held[at..]);
            let before = replies.len();
            let number = match self.registry.request(session, &held[at..]) {
                Done::Waits => break,
                Done::Refused(number) => number,
                Done::Answered { used, reply, over } => {
                    replies.extend_from_slice(reply);
                    at = if over { held.len() } else { at + used };
                    0
                }
            };
            if let Some(told) = told {
                told.must_come_true(number, &replies[before..], self.registry.memory().words[2]);
            }
            if number != 0 {
                return (replies, format!("!{number}"));
            }
        }
        held.drain(..at);
        if self.limit < held.len() {
            return (replies, "!".to_string());
        }
        self.held[session] = held;
        (replies, String::new())
    }

    /// The answer to a line, without its line end.
    pub fn line(&mut self, line: &[u8]) -> String {
        let Some((session, bytes)) = given(line, self.limit) else { return "?".to_string() };
        let (replies, mark) = self.frame(session, &bytes);
        let text = if replies.is_empty() && mark.is_empty() { "-".to_string() } else { hex(&replies) + &mark };
        format!("{session:02} {text}")
    }

    pub fn table(&self) -> Vec<(&[u8], &[u8])> {
        self.registry.table()
    }

    pub fn read(&self, name: &[u8]) -> Option<&[u8]> {
        self.registry.read(name)
    }
}

pub fn hex(bytes: &[u8]) -> String {
    const DIGITS: &[u8; 16] = b"0123456789abcdef";
    bytes.iter().flat_map(|b| [DIGITS[(b >> 4) as usize] as char, DIGITS[(b & 15) as usize] as char]).collect()
}

fn digit(b: u8) -> Option<u8> {
    match b {
        b'0'..=b'9' => Some(b - b'0'),
        b'a'..=b'f' => Some(b - b'a' + 10),
        _ => None,
    }
}

/// Session and bytes of a line of the form.
fn given(line: &[u8], limit: usize) -> Option<(usize, Vec<u8>)> {
    let [a @ b'0'..=b'9', b @ b'0'..=b'9', b' ', text @ ..] = line else { return None };
    if text.is_empty() || text.len() % 2 != 0 || limit < text.len() / 2 {
        return None;
    }
    let bytes: Option<Vec<u8>> = text.chunks(2).map(|pair| Some(digit(pair[0])? * 16 + digit(pair[1])?)).collect();
    Some((((a - b'0') * 10 + (b - b'0')) as usize, bytes?))
}
