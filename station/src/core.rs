//! The proved calls as safe functions. A slice goes over as a pointer and a count, and the library asks nothing of either,
//! so the types are all that a caller has to keep. What comes back is tested before it is used as a place.

pub const SESSIONS: usize = 16;
pub const SESSION_WORDS: usize = 644;
pub const SESSION_BYTES: usize = 10_240;
pub const HEADER_WORDS: usize = 5;
pub const VERSION_WORDS: usize = 4;

/// What a request returns: 0 or a number, the bytes used, and the length of the reply.
#[repr(C)]
#[derive(Clone, Copy, Debug, PartialEq, Eq)]
pub struct Answer {
    pub number: u64,
    pub used: usize,
    pub reply: usize,
}

/// What a preview returns: 0 or a number, the verdict, the length of the reply, and the last sequence that EXEC would leave.
#[repr(C)]
#[derive(Clone, Copy, Debug, PartialEq, Eq)]
pub struct Previewed {
    pub number: u64,
    pub verdict: u64,
    pub reply: usize,
    pub last: u64,
}

/// A member of a group: its read sequence, if it has one, and the places of its writes and checked keys in the table of parts.
#[repr(C)]
#[derive(Clone, Copy, Debug, PartialEq, Eq)]
pub struct Member {
    pub has_read: u64,
    pub read: u64,
    pub first_write: usize,
    pub writes: usize,
    pub first_check: usize,
    pub checks: usize,
}

/// A value of the store: 0 or 9, 1 if it was found, and its part of the store's bytes.
#[repr(C)]
#[derive(Clone, Copy, Debug, PartialEq, Eq)]
pub struct Value {
    pub number: u64,
    pub found: u64,
    pub start: usize,
    pub size: usize,
}

/// A live key: 0 or 9, 1 if one was found, the place behind it, and the parts of the store's bytes that hold key and value.
#[repr(C)]
#[derive(Clone, Copy, Debug, PartialEq, Eq)]
pub struct Entry {
    pub number: u64,
    pub found: u64,
    pub next: usize,
    pub key_start: usize,
    pub key_size: usize,
    pub value_start: usize,
    pub value_size: usize,
}

mod library {
    use super::{Answer, Entry, Member, Previewed, Value};

    extern "C" {
        pub fn registry_open(words: *mut u64, words_count: usize, bytes: *const u8, bytes_count: usize, last: u64, versions: usize, size: usize) -> u64;
        pub fn registry_request(
            session: usize,
            input: *const u8,
            input_count: usize,
            places: *mut u64,
            places_count: usize,
            words: *mut u64,
            words_count: usize,
            bytes: *mut u8,
            bytes_count: usize,
            session_words: *mut u64,
            session_words_count: usize,
            session_bytes: *mut u8,
            session_bytes_count: usize,
            reply: *mut u8,
            reply_count: usize,
        ) -> Answer;
        pub fn registry_preview(
            session: usize,
            words: *const u64,
            words_count: usize,
            bytes: *const u8,
            bytes_count: usize,
            session_words: *const u64,
            session_words_count: usize,
            session_bytes: *const u8,
            session_bytes_count: usize,
            reply: *mut u8,
            reply_count: usize,
        ) -> Previewed;
        pub fn registry_group(
            members: *const Member,
            members_count: usize,
            parts: *const u64,
            parts_count: usize,
            data: *const u8,
            data_count: usize,
            verdicts: *mut u8,
            verdicts_count: usize,
            words: *mut u64,
            words_count: usize,
            bytes: *mut u8,
            bytes_count: usize,
        ) -> u64;
        pub fn registry_read(words: *const u64, words_count: usize, bytes: *const u8, bytes_count: usize, name: *const u8, name_count: usize) -> Value;
        pub fn registry_entry_from(words: *const u64, words_count: usize, bytes: *const u8, bytes_count: usize, from: usize) -> Entry;
    }
}

/// The state lent to a request: a store and sixteen sessions.
pub struct Lent<'a> {
    pub words: &'a mut [u64],
    pub bytes: &'a mut [u8],
    pub session_words: &'a mut [u64],
    pub session_bytes: &'a mut [u8],
}

/// Opens an empty store: 0, or 9 where the buffers do not hold the capacities.
pub fn open(words: &mut [u64], bytes: &[u8], last: u64, versions: usize, size: usize) -> u64 {
    // SAFETY: each pointer and count is that of a live slice, and the mutable ones do not overlap.
    unsafe { library::registry_open(words.as_mut_ptr(), words.len(), bytes.as_ptr(), bytes.len(), last, versions, size) }
}

/// Answers the request at the front of `input`. The reply stands in front of `reply`.
pub fn request(session: usize, input: &[u8], places: &mut [u64], lent: Lent, reply: &mut [u8]) -> Answer {
    // SAFETY: each pointer and count is that of a live slice, and the mutable ones do not overlap.
    let answer = unsafe {
        library::registry_request(
            session,
            input.as_ptr(),
            input.len(),
            places.as_mut_ptr(),
            places.len(),
            lent.words.as_mut_ptr(),
            lent.words.len(),
            lent.bytes.as_mut_ptr(),
            lent.bytes.len(),
            lent.session_words.as_mut_ptr(),
            lent.session_words.len(),
            lent.session_bytes.as_mut_ptr(),
            lent.session_bytes.len(),
            reply.as_mut_ptr(),
            reply.len(),
        )
    };
    assert!(answer.used <= input.len() && answer.reply <= reply.len(), "an answer outside its buffers");
    answer
}

/// What EXEC of a session would give. The reply stands in front of `reply`; store and sessions are only read.
pub fn preview(session: usize, words: &[u64], bytes: &[u8], session_words: &[u64], session_bytes: &[u8], reply: &mut [u8]) -> Previewed {
    // SAFETY: each pointer and count is that of a live slice, and the mutable one does not overlap another.
    let previewed = unsafe {
        library::registry_preview(
            session,
            words.as_ptr(),
            words.len(),
            bytes.as_ptr(),
            bytes.len(),
            session_words.as_ptr(),
            session_words.len(),
            session_bytes.as_ptr(),
            session_bytes.len(),
            reply.as_mut_ptr(),
            reply.len(),
        )
    };
    assert!(previewed.reply <= reply.len(), "a preview outside its buffer");
    previewed
}

/// Judges a group and commits its accepted members: 0, or 8 or 9. Each member gets a verdict byte.
pub fn group(members: &[Member], parts: &[u64], data: &[u8], verdicts: &mut [u8], words: &mut [u64], bytes: &mut [u8]) -> u64 {
    // SAFETY: each pointer and count is that of a live slice, and the mutable ones do not overlap.
    unsafe {
        library::registry_group(
            members.as_ptr(),
            members.len(),
            parts.as_ptr(),
            parts.len(),
            data.as_ptr(),
            data.len(),
            verdicts.as_mut_ptr(),
            verdicts.len(),
            words.as_mut_ptr(),
            words.len(),
            bytes.as_mut_ptr(),
            bytes.len(),
        )
    }
}

/// The value of a key at the last sequence, or `None`; 9 where the store is not one.
pub fn read<'a>(words: &[u64], bytes: &'a [u8], name: &[u8]) -> Result<Option<&'a [u8]>, u64> {
    // SAFETY: each pointer and count is that of a live slice.
    let value = unsafe { library::registry_read(words.as_ptr(), words.len(), bytes.as_ptr(), bytes.len(), name.as_ptr(), name.len()) };
    match (value.number, value.found) {
        (0, 0) => Ok(None),
        (0, _) => Ok(Some(part(bytes, value.start, value.size))),
        (number, _) => Err(number),
    }
}

/// The first live key from the place `from` on.
pub fn entry(words: &[u64], bytes: &[u8], from: usize) -> Entry {
    // SAFETY: each pointer and count is that of a live slice.
    unsafe { library::registry_entry_from(words.as_ptr(), words.len(), bytes.as_ptr(), bytes.len(), from) }
}

/// The live keys, ascending, each with its value; 9 where the store is not one.
pub fn table<'a>(words: &[u64], bytes: &'a [u8]) -> Result<Vec<(&'a [u8], &'a [u8])>, u64> {
    let mut found = Vec::new();
    let mut from = 0;
    loop {
        let next = entry(words, bytes, from);
        match (next.number, next.found) {
            (0, 0) => return Ok(found),
            (0, _) => {
                assert!(from < next.next, "a walk that does not move on");
                from = next.next;
                found.push((part(bytes, next.key_start, next.key_size), part(bytes, next.value_start, next.value_size)));
            }
            (number, _) => return Err(number),
        }
    }
}

fn part(bytes: &[u8], start: usize, length: usize) -> &[u8] {
    let end = start.checked_add(length).expect("a part within the address space");
    &bytes[start..end]
}

/// A request as an array of bulk strings.
pub fn array(words: &[impl AsRef<[u8]>]) -> Vec<u8> {
    let mut out = format!("*{}\r\n", words.len()).into_bytes();
    for word in words.iter().map(AsRef::as_ref) {
        out.extend(format!("${}\r\n", word.len()).into_bytes());
        out.extend_from_slice(word);
        out.extend(b"\r\n");
    }
    out
}

/// The length of the first of these requests that stands at the front of `input`, in letters of either case.
pub fn at_front(requests: &[&[u8]], input: &[u8]) -> Option<usize> {
    let stands = |request: &&&[u8]| input.get(..request.len()).is_some_and(|front| front.eq_ignore_ascii_case(request));
    requests.iter().find(stands).map(|request| request.len())
}

/// What is lent to a call, with an argument table and a reply buffer.
#[derive(Clone, PartialEq)]
pub struct Memory {
    pub words: Vec<u64>,
    pub bytes: Vec<u8>,
    pub session_words: Vec<u64>,
    pub session_bytes: Vec<u8>,
    pub places: Vec<u64>,
    pub reply: Vec<u8>,
}

impl Memory {
    /// Zeros: so many words and bytes for a store, sixteen sessions, places for so many arguments, a reply buffer.
    pub fn zeros(words: usize, bytes: usize, arguments: usize, reply: usize) -> Memory {
        Memory {
            words: vec![0; words],
            bytes: vec![0; bytes],
            session_words: vec![0; SESSIONS * SESSION_WORDS],
            session_bytes: vec![0; SESSIONS * SESSION_BYTES],
            places: vec![0; 2 * arguments],
            reply: vec![0; reply],
        }
    }

    pub fn request(&mut self, session: usize, input: &[u8]) -> Answer {
        let lent = Lent {
            words: &mut self.words,
            bytes: &mut self.bytes,
            session_words: &mut self.session_words,
            session_bytes: &mut self.session_bytes,
        };
        request(session, input, &mut self.places, lent, &mut self.reply)
    }

    pub fn preview(&mut self, session: usize) -> Previewed {
        preview(session, &self.words, &self.bytes, &self.session_words, &self.session_bytes, &mut self.reply)
    }

    /// Becomes a copy, in the memory that it has.
    pub fn copy(&mut self, other: &Memory) {
        self.words.clone_from(&other.words);
        self.bytes.clone_from(&other.bytes);
        self.session_words.clone_from(&other.session_words);
        self.session_bytes.clone_from(&other.session_bytes);
        self.places.clone_from(&other.places);
        self.reply.clone_from(&other.reply);
    }

    /// Whether store and sessions are the same, byte for byte.
    pub fn same_lent(&self, other: &Memory) -> bool {
        self.words == other.words && self.bytes == other.bytes && self.session_words == other.session_words && self.session_bytes == other.session_bytes
    }
}

/// A store and sixteen sessions in memory of their own, and how long a reply may be.
pub struct Registry {
    memory: Memory,
    most_reply: usize,
}

/// What became of the request at the front of some bytes.
pub enum Done<'a> {
    /// The request is not whole yet.
    Waits,
    /// A number of document 01; all is as it was, but for the mark of number 4.
    Refused(u64),
    /// So many bytes were used; the reply; and whether the console's session is over.
    Answered { used: usize, reply: &'a [u8], over: bool },
}

impl Registry {
    /// An empty store with these capacities, sixteen clear sessions, and room for requests of `arguments` arguments.
    /// The reply buffer grows up to `most_reply` bytes. `Err` holds a number.
    pub fn open(last: u64, versions: usize, size: usize, arguments: usize, most_reply: usize) -> Result<Registry, u64> {
        let words = versions.checked_mul(VERSION_WORDS).and_then(|rows| rows.checked_add(HEADER_WORDS)).ok_or(9u64)?;
        let mut memory = Memory::zeros(words, size, arguments, most_reply.min(65_536));
        match open(&mut memory.words, &memory.bytes, last, versions, size) {
            0 => Ok(Registry { memory, most_reply }),
            number => Err(number),
        }
    }

    /// A longer reply buffer; whether there is one.
    fn grow_reply(&mut self) -> bool {
        let length = self.memory.reply.len();
        self.memory.reply.resize((4 * length).min(self.most_reply), 0);
        length < self.most_reply
    }

    /// Answers the request at the front of `input`. Number 3 leaves all, so the call is made again with a longer reply buffer.
    pub fn request(&mut self, session: usize, input: &[u8]) -> Done<'_> {
        let mut answer = self.memory.request(session, input);
        while answer.number == 3 && self.grow_reply() {
            answer = self.memory.request(session, input);
        }
        if answer.number != 0 {
            return Done::Refused(answer.number);
        }
        if answer.used == 0 {
            return Done::Waits;
        }
        let reply = &self.memory.reply[..answer.reply];
        Done::Answered { used: answer.used, reply, over: is_over(input, &self.memory.places, reply) }
    }

    /// What EXEC of a session would give, and its reply.
    pub fn preview(&mut self, session: usize) -> (Previewed, &[u8]) {
        let mut previewed = self.memory.preview(session);
        while previewed.number == 3 && self.grow_reply() {
            previewed = self.memory.preview(session);
        }
        (previewed, &self.memory.reply[..previewed.reply])
    }

    /// What is lent to the calls.
    pub fn memory(&self) -> &Memory {
        &self.memory
    }

    /// Clears a session as the console's own QUIT would.
    pub fn clear(&mut self, session: usize) {
        let answer = self.memory.request(session, b"QUIT\n");
        assert_eq!((answer.number, answer.used, answer.reply), (0, 5, 5), "QUIT is always answered");
    }

    /// The value of a key at the last sequence.
    pub fn read(&self, name: &[u8]) -> Option<&[u8]> {
        read(&self.memory.words, &self.memory.bytes, name).expect("an opened store")
    }

    /// The live keys, ascending, each with its value.
    pub fn table(&self) -> Vec<(&[u8], &[u8])> {
        table(&self.memory.words, &self.memory.bytes).expect("an opened store")
    }
}

/// Whether an answered request ends its session: a protocol error, or QUIT, whose name is the first entry of the argument table.
fn is_over(input: &[u8], places: &[u64], reply: &[u8]) -> bool {
    if reply.starts_with(b"-ERR Protocol error: ") {
        return true;
    }
    if reply != b"+OK\r\n" {
        return false;
    }
    let (start, length) = (places[0] as usize, places[1] as usize);
    length == 4 && part(input, start, length).eq_ignore_ascii_case(b"QUIT")
}
