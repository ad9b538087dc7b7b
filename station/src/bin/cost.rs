//! What a call of the library costs at 16, 128, 1,024 and 16,384 versions, as tables in Markdown: the validity of the lent state alone,
//! GET, and SET, each the least of five rounds; then EXEC without the requests in front of it, the least of its calls.
use station::core::{self, Memory};
use std::time::Instant;

const ROUNDS: usize = 5;
const SIZES: [usize; 4] = [16, 128, 1024, 16_384];

fn open(versions: usize) -> Memory {
    let mut memory = Memory::zeros(5 + 4 * versions, 64 * versions, 1024, 256);
    assert_eq!(core::open(&mut memory.words, &memory.bytes, 0, versions, 64 * versions), 0);
    memory
}

fn set(i: usize) -> Vec<u8> {
    format!("SET station:{i:05} {i:08}\r\n").into_bytes()
}

/// A store with this many versions, one for each key, and room for `more`.
fn filled(versions: usize, more: usize) -> Memory {
    let mut store = open(versions + more);
    for i in 0..versions {
        assert_eq!(store.request(0, &set(i)).number, 0);
    }
    store
}

/// The least time of one call in nanoseconds, over the rounds.
fn least(mut round: impl FnMut() -> (u128, usize)) -> u128 {
    (0..ROUNDS).map(|_| round()).map(|(time, calls)| time / calls as u128).min().unwrap()
}

fn asking(versions: usize, input: impl Fn(usize) -> Vec<u8>) -> u128 {
    let mut store = filled(versions, 0);
    let inputs: Vec<Vec<u8>> = (0..2_000_000 / (versions + 1000)).map(|i| input(i * 7919 % versions)).collect();
    least(|| {
        let begin = Instant::now();
        for input in &inputs {
            assert_eq!(store.request(0, input).number, 0);
        }
        (begin.elapsed().as_nanos(), inputs.len())
    })
}

fn setting(versions: usize) -> u128 {
    least(|| {
        let mut store = filled(versions, 16);
        let begin = Instant::now();
        for i in 0..16 {
            assert_eq!(store.request(0, &set(i * 7919 % versions)).number, 0);
        }
        (begin.elapsed().as_nanos(), 16)
    })
}

/// The queue of an EXEC: its column, whether a key is watched, whether another session writes it, the command around its key, how often.
struct Queue {
    column: &'static str,
    watched: bool,
    moved: bool,
    command: (&'static str, &'static str),
    count: usize,
}

const QUEUES: [Queue; 5] = [
    Queue { column: "MULTI, SET", watched: false, moved: false, command: ("SET", " new"), count: 1 },
    Queue { column: "WATCH, MULTI, 8 SET", watched: true, moved: false, command: ("SET", " new"), count: 8 },
    Queue { column: "the same, the watched key written", watched: true, moved: true, command: ("SET", " new"), count: 8 },
    Queue { column: "WATCH, MULTI, 8 INCR", watched: true, moved: false, command: ("INCR", ""), count: 8 },
    Queue { column: "WATCH, MULTI, 8 GET", watched: true, moved: false, command: ("GET", ""), count: 8 },
];

/// The least time of an EXEC behind this queue; store and sessions are put back in front of each.
fn executing(versions: usize, queue: &Queue) -> u128 {
    let mut store = filled(versions, 16);
    let send = |store: &mut Memory, session: usize, input: &[u8]| assert_eq!(store.request(session, input).number, 0);
    if queue.watched {
        send(&mut store, 0, b"WATCH station:00000\r\n");
    }
    send(&mut store, 0, b"MULTI\r\n");
    for i in 0..queue.count {
        let (name, rest) = queue.command;
        send(&mut store, 0, format!("{name} station:{:05}{rest}\r\n", i * (versions / 8)).as_bytes());
    }
    if queue.moved {
        send(&mut store, 1, &set(0));
    }
    let kept = store.clone();
    let due = if queue.moved { "*-1\r\n".to_string() } else { format!("*{}\r\n", queue.count) };
    let exec = |_| {
        store.words.copy_from_slice(&kept.words);
        store.bytes.copy_from_slice(&kept.bytes);
        store.session_words.copy_from_slice(&kept.session_words);
        store.session_bytes.copy_from_slice(&kept.session_bytes);
        let begin = Instant::now();
        let answer = store.request(0, b"EXEC\r\n");
        let time = begin.elapsed().as_nanos();
        assert!(answer.number == 0 && store.reply.starts_with(due.as_bytes()));
        time
    };
    (0..5_000_000 / (versions + 1000)).map(exec).min().unwrap()
}

fn main() {
    println!("| Versions | validity alone (no request), ns | GET, ns | SET, ns |");
    println!("|---|---|---|---|");
    for versions in SIZES {
        let validity = asking(versions, |_| Vec::new());
        let get = asking(versions, |i| format!("GET station:{i:05}\r\n").into_bytes());
        println!("| {versions} | {validity} | {get} | {} |", setting(versions));
    }
    println!("\n| Versions | {} |", QUEUES.map(|queue| format!("{}, ns", queue.column)).join(" | "));
    println!("|---|---|---|---|---|---|");
    for versions in SIZES {
        println!("| {versions} | {} |", QUEUES.map(|queue| executing(versions, &queue).to_string()).join(" | "));
    }
}
