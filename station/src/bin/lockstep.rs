//! lockstep REFERENCE SEED CALLS: the library beside a program that speaks the form of `frames`, on the same generated frames,
//! until so many request calls were made. Prints the first line that differs and fails; a number counts as a difference.
//! The Rust is the yardstick of an EXEC only where nothing was written between its session's first WATCH in force and the EXEC, and of a
//! command inside MULTI only where its argument count is right and it is no SET with options. Texts that are a number to the Rust alone are
//! not sent. Each EXEC has a preview before it, which must come true; so has one of sixteen other calls, by EXEC on a copy.
use station::core;
use station::frames::{hex, Frames, LIMIT};
use station::layout::{may_queue, QUEUEABLE};
use station::random::Random;
use std::collections::BTreeMap;
use std::io::{Read, Write};
use std::process::{exit, Command, Stdio};

const FRAMES_OF_A_RUN: usize = 1500;
const KEYS: [&[u8]; 16] = [b"a", b"b", b"c", b"ab", b"abc", b"axbbc", b"n", b"m", b"k1", b"k2", b"", b"*", b"k\xff", b"a b", b"A", b"a\r\nb"];
const NUMBERS: [&[u8]; 16] = [
    b"0", b"1", b"2", b"7", b"10", b"-1", b"-7", b"12", b"-10", b"9223372036854775806", b"9223372036854775807", b"9223372036854775808", b"-9223372036854775808", b"+", b"1a", b"",
];
const PATTERNS: [&[u8]; 12] = [b"*", b"?", b"a*", b"*b?", b"a*b?", b"\\*", b"\\", b"k?", b"**", b"*a*b*", b"[a]", b""];
const FAULTS: [&[u8]; 12] = [
    b"*x\r\n", b"*-1\r\n", b"*1048577\r\n", b"*1\r\nX\r\n", b"*1\r\n$x\r\n", b"*1\r\n$67108865\r\n", b"*1\r\n$4\r\nPINGxx", b"*\xff\r\n", b"*1 \r\n", b"*1\r\n\r\n", b"*+\r\n", b"*1\r\n$3\r\nPING\r\n",
];
const UNKNOWN: [&[u8]; 8] = [b"FOO", b"", b"GETS", b"G\xc3\xa9T", b"G\xffT", b"foo\r\nbar", b"\xed\xa0\x80", b"PING\x00"];
const WRITERS: [&[u8]; 6] = [b"SET", b"DEL", b"MSET", b"INCR", b"INCRBY", b"DECR"];

/// A session by its requests: inside MULTI, requests since then, a watch in force, and whether something may have been written since
/// that watch began.
#[derive(Clone, Copy, Default)]
struct Session {
    multi: bool,
    queued: usize,
    watching: bool,
    written: bool,
}

struct Source {
    random: Random,
    sessions: usize,
    state: [Session; 16],
    /// EXECs sent inside MULTI with a watch in force.
    watched: u64,
}

impl Source {
    fn key(&mut self) -> Vec<u8> {
        self.random.pick(&KEYS).to_vec()
    }

    fn keys(&mut self, most: usize) -> Vec<Vec<u8>> {
        (0..1 + self.random.below(most)).map(|_| self.key()).collect()
    }

    fn value(&mut self) -> Vec<u8> {
        if self.random.below(3) > 0 {
            return self.random.pick(&NUMBERS).to_vec();
        }
        (0..self.random.below(12)).map(|_| *self.random.pick(b"abxyz \r\n\xff\x00")).collect()
    }

    /// Name and arguments of a command that `execute` answers.
    fn command(&mut self) -> Vec<Vec<u8>> {
        let mut words: Vec<Vec<u8>> = match self.random.below(15) {
            0 | 1 => vec![b"GET".to_vec(), self.key()],
            2 | 3 => vec![b"SET".to_vec(), self.key(), self.value()],
            4 => [vec![b"DEL".to_vec()], self.keys(3)].concat(),
            5 => [vec![b"EXISTS".to_vec()], self.keys(4)].concat(),
            6 => [vec![b"MGET".to_vec()], self.keys(4)].concat(),
            7 => (0..1 + self.random.below(2)).fold(vec![b"MSET".to_vec()], |mut w, _| {
                w.extend([self.key(), self.value()]);
                w
            }),
            8 => vec![b"INCR".to_vec(), self.key()],
            9 => vec![b"INCRBY".to_vec(), self.key(), self.value()],
            10 => vec![b"DECR".to_vec(), self.key()],
            11 => vec![b"PING".to_vec()],
            12 => vec![b"ECHO".to_vec(), self.value()],
            13 => self.listing(),
            _ => vec![self.random.pick(&UNKNOWN).to_vec(), self.key()],
        };
        if self.random.once_in(20) {
            words.push(self.key());
        }
        if self.random.once_in(20) {
            words.truncate(1);
        }
        words
    }

    /// The same inside MULTI: where the name may be queued, with arguments with which it is.
    fn command_inside(&mut self) -> Vec<Vec<u8>> {
        loop {
            let words = self.command();
            if !QUEUEABLE.contains(&words[0].as_slice()) || may_queue(&words[0], words.len() as u64 - 1) {
                return words;
            }
        }
    }

    fn listing(&mut self) -> Vec<Vec<u8>> {
        let pattern = self.random.pick(&PATTERNS).to_vec();
        match self.random.below(6) {
            0 => vec![b"DBSIZE".to_vec()],
            1 => vec![b"KEYS".to_vec(), pattern],
            2 => vec![b"SCAN".to_vec(), self.value(), b"MATCH".to_vec(), pattern],
            3 => vec![b"SCAN".to_vec(), b"0".to_vec(), b"COUNT".to_vec(), self.value()],
            4 => vec![b"RANGE".to_vec(), self.key(), self.key()],
            _ => vec![b"RANGE".to_vec(), self.key(), self.key(), b"LIMIT".to_vec(), self.value()],
        }
    }

    /// A request of a session, with the queue kept below its limit and DISCARD in place of an EXEC that has no yardstick.
    fn words(&mut self, session: usize) -> Vec<Vec<u8>> {
        let Session { multi, queued, watching, written } = self.state[session];
        let full = 30 <= queued;
        // A watch that has met no write soon comes to its MULTI and EXEC.
        let soon = watching && !written && self.random.once_in(3);
        let kind = if full { 2 + self.random.below(2) } else if soon { 1 + usize::from(multi) } else { self.random.below(14) };
        let words = match kind {
            0 => [vec![b"WATCH".to_vec()], self.keys(3)].concat(),
            1 => vec![b"MULTI".to_vec()],
            2 if multi && watching && written => vec![b"DISCARD".to_vec()],
            2 => {
                self.watched += u64::from(multi && watching);
                vec![b"EXEC".to_vec()]
            }
            3 if full || self.random.once_in(4) => vec![b"DISCARD".to_vec()],
            4 if self.random.once_in(8) => vec![b"UNWATCH".to_vec()],
            5 if self.random.once_in(40) => vec![b"quit".to_vec()],
            _ if multi => self.command_inside(),
            _ => self.command(),
        };
        self.follow(session, &words[0]);
        words
    }

    /// Keeps the sessions up to date behind a request with this name.
    fn follow(&mut self, session: usize, name: &[u8]) {
        let state = &mut self.state[session];
        let writes = if state.multi { name == b"EXEC" } else { WRITERS.contains(&name) };
        match (name, state.multi) {
            (b"quit", _) | (b"EXEC" | b"DISCARD", true) => *state = Session::default(),
            (_, true) => state.queued += 1,
            (b"MULTI", false) => state.multi = true,
            (b"WATCH", false) if !state.watching => (state.watching, state.written) = (true, false),
            (b"UNWATCH", false) => state.watching = false,
            _ => {}
        }
        if writes {
            self.state.iter_mut().for_each(|s| s.written = true);
        }
    }

    /// The bytes of a request, and whether it ends the session: what stands behind it in its frame is dropped.
    fn request(&mut self, session: usize) -> (Vec<u8>, bool) {
        if self.random.once_in(60) {
            self.state[session] = Session::default();
            return (self.random.pick(&FAULTS).to_vec(), true);
        }
        if self.random.once_in(60) {
            return (b"\r\n".to_vec(), false);
        }
        let mut words = self.words(session);
        let ends = words[0] == b"quit";
        if self.random.once_in(6) {
            words[0].make_ascii_lowercase();
        }
        if self.random.once_in(2) && words.iter().all(|w| !w.is_empty() && w.iter().all(|b| !b" \t\n\x0c\r".contains(b))) && words[0][0] != b'*' {
            return ([words.join(&b' '), b"\r\n".to_vec()].concat(), ends);
        }
        (core::array(&words), ends)
    }

    /// The frames of one or several requests: mostly whole, now and then cut in two.
    fn frames(&mut self) -> Vec<(usize, Vec<u8>)> {
        let session = self.random.below(self.sessions);
        let several = if self.random.once_in(10) { 1 + self.random.below(5) } else { 1 };
        let mut bytes = Vec::new();
        for _ in 0..several {
            let (request, ends) = self.request(session);
            bytes.extend(request);
            if ends {
                bytes.extend(b"PING\r\n");
                break;
            }
        }
        if self.random.once_in(10) && 1 < bytes.len() {
            let cut = 1 + self.random.below(bytes.len() - 1);
            return vec![(session, bytes[..cut].to_vec()), (session, bytes[cut..].to_vec())];
        }
        vec![(session, bytes)]
    }
}

/// The table by the library's readings is what session 0 is told by KEYS and GET; the lines and answers join the run.
fn show_table(frames: &mut Frames, input: &mut Vec<String>, answers: &mut Vec<String>) {
    let mut ask = |frames: &mut Frames, words: &[Vec<u8>]| {
        let line = format!("00 {}", hex(&core::array(words)));
        answers.push(frames.line(line.as_bytes()));
        input.push(line);
        answers.last().cloned().unwrap_or_default()
    };
    ask(frames, &[b"quit".to_vec()]);
    let table: Vec<(Vec<u8>, Vec<u8>)> = frames.table().iter().map(|(k, v)| (k.to_vec(), v.to_vec())).collect();
    let keys: Vec<Vec<u8>> = table.iter().map(|(k, _)| k.clone()).collect();
    let told = ask(frames, &[b"KEYS".to_vec(), b"*".to_vec()]);
    assert_eq!(told, format!("00 {}", hex(&core::array(&keys))), "the table by its readings and by KEYS");
    for (key, value) in &table {
        let told = ask(frames, &[b"GET".to_vec(), key.clone()]);
        let bulk = [format!("${}\r\n", value.len()).into_bytes(), value.clone(), b"\r\n".to_vec()].concat();
        assert_eq!(told, format!("00 {}", hex(&bulk)), "a value by the walk and by GET");
        assert_eq!(frames.read(key), Some(value.as_slice()), "a value by the reading");
    }
    assert_eq!(frames.read(b"no such key"), None);
}

/// One run: the lines, the library's answers, the frames with their counts, and the EXECs with a watch in force.
fn run(seed: u64) -> (Vec<String>, Vec<String>, Frames, u64) {
    let mut random = Random::new(seed);
    let sessions = *random.pick(&[1, 2, 2, 3, 4, 16]);
    let mut source = Source { random, sessions, state: [Session::default(); 16], watched: 0 };
    let mut frames = Frames::open(6 * FRAMES_OF_A_RUN, 1 << 20, 1024, 1 << 20, LIMIT);
    let (mut input, mut answers) = (Vec::new(), Vec::new());
    while input.len() < FRAMES_OF_A_RUN {
        for (session, bytes) in source.frames() {
            let line = format!("{session:02} {}", hex(&bytes));
            answers.push(frames.line(line.as_bytes()));
            input.push(line);
        }
    }
    show_table(&mut frames, &mut input, &mut answers);
    (input, answers, frames, source.watched)
}

/// What the reference answers to the lines.
fn reference(program: &str, input: &[String]) -> Vec<String> {
    let mut child = Command::new(program).stdin(Stdio::piped()).stdout(Stdio::piped()).spawn().expect("the reference starts");
    let mut to = child.stdin.take().expect("a pipe");
    let text = input.join("\n") + "\n";
    let writer = std::thread::spawn(move || to.write_all(text.as_bytes()));
    let mut answers = String::new();
    child.stdout.take().expect("a pipe").read_to_string(&mut answers).expect("text");
    writer.join().expect("a writer").expect("the reference reads all");
    assert!(child.wait().expect("an end").success(), "the reference failed");
    answers.lines().map(str::to_string).collect()
}

fn main() {
    let words: Vec<String> = std::env::args().collect();
    let [_, program, seed, calls] = words.as_slice() else {
        eprintln!("usage: lockstep REFERENCE SEED CALLS");
        exit(2)
    };
    let (mut seed, calls): (u64, u64) = (seed.parse().expect("a seed"), calls.parse().expect("a count"));
    let (mut made, mut lines, mut runs, mut watched) = (0, 0, 0, 0);
    let mut previews: BTreeMap<u64, u64> = BTreeMap::new();
    while made < calls {
        let (input, answers, frames, watched_execs) = run(seed);
        let expected = reference(program, &input);
        if let Some(i) = (0..input.len()).find(|&i| expected.get(i) != Some(&answers[i])) {
            println!("seed {seed}, line {}: {}\nreference {:?}\nlibrary   {:?}", i + 1, input[i], expected.get(i), answers[i]);
            exit(1)
        }
        if expected.len() != answers.len() {
            println!("seed {seed}: {} lines of the reference, {} of the library", expected.len(), answers.len());
            exit(1)
        }
        made += frames.calls;
        frames.previews.iter().for_each(|(verdict, count)| *previews.entry(*verdict).or_default() += count);
        lines += input.len();
        watched += watched_execs;
        runs += 1;
        seed += 1;
    }
    println!("lockstep: {made} calls, {lines} lines, {runs} runs, {watched} EXECs with a watch in force, no difference");
    println!("lockstep: previews that came true, by verdict: {previews:?}");
    assert!(previews.keys().eq(&[0, 1, 255]), "not every verdict was told");
}
