//! Previews held to EXEC: a preview changes nothing that it is lent, and what it tells comes true.
use crate::core::{Memory, Previewed};

/// EXEC without arguments, as an array and inline.
pub const EXEC: [&[u8]; 3] = [b"*1\r\n$4\r\nEXEC\r\n", b"EXEC\r\n", b"EXEC\n"];

/// What a preview returned, and its reply.
#[derive(Debug, PartialEq)]
pub struct Told {
    pub previewed: Previewed,
    pub reply: Vec<u8>,
}

impl Told {
    /// Takes the reply out of the memory, which must be as it was kept, and zero behind the reply.
    pub fn new(previewed: Previewed, memory: &Memory, kept: &Memory) -> Told {
        assert!(memory.same_lent(kept), "a preview changed what it was lent");
        let (reply, behind) = memory.reply.split_at(previewed.reply);
        assert!(behind.iter().all(|b| *b == 0), "a preview left bytes behind its reply");
        Told { previewed, reply: reply.to_vec() }
    }

    /// EXEC gave this number and this reply, and left this last sequence.
    pub fn must_come_true(&self, number: u64, reply: &[u8], last: u64) {
        let last = if number == 0 { last } else { 0 };
        let due = Previewed { number, verdict: verdict(number, reply), reply: reply.len(), last };
        assert_eq!(*self, Told { previewed: due, reply: reply.to_vec() }, "a preview, and what EXEC gave");
    }

    /// The same with EXEC on the copy that was kept.
    pub fn must_come_true_on(&self, kept: &mut Memory, session: usize) {
        let answer = kept.request(session, EXEC[0]);
        self.must_come_true(answer.number, &kept.reply[..answer.reply], kept.words.get(2).copied().unwrap_or(0));
    }
}

/// The verdict behind an answer to EXEC.
fn verdict(number: u64, reply: &[u8]) -> u64 {
    match reply {
        _ if number != 0 => 255,
        b"*-1\r\n" => 1,
        [b'*', ..] => 0,
        _ => 255,
    }
}
