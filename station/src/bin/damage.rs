//! damage SEED STATES GROUPS: damaged lent states give 9 and nothing changes; previews of good states come true on a copy; groups that meet
//! 6, 7, 8 and 255 give the verdicts of document 01 and leave the store that it says. Store, sessions, argument table, reply and verdicts are
//! compared byte by byte.
use station::core::{self, Answer, Member, Memory, Previewed, SESSIONS, SESSION_BYTES, SESSION_WORDS};
use station::groups::{lent, Group, Plain, Store};
use station::layout::{self, ARGUMENT_COUNTS, ARGUMENT_LENGTHS, FAILED, QUEUED, WATCHED, WATCH_BYTES, WATCH_LENGTHS, WATCH_SEQUENCES};
use station::previews::Told;
use station::random::Random;
use std::collections::BTreeMap;
use std::process::exit;

const KEYS: [&[u8]; 10] = [b"a", b"ab", b"b", b"counter", b"f", b"", b"z\xff", b"k1", b"k2", b"key of some length"];
const VERSIONS: usize = 40;
const SIZE: usize = 900;
/// Words and bytes behind the capacities, which no call touches.
const BEHIND: usize = 7;

fn open(random: &mut Random) -> Memory {
    let fill = |random: &mut Random, n: usize| (0..n).map(|_| random.next() as u8).collect::<Vec<u8>>();
    let mut state = Memory {
        words: (0..5 + 4 * VERSIONS + BEHIND).map(|_| random.next()).collect(),
        bytes: fill(random, SIZE + BEHIND),
        session_words: vec![0; SESSIONS * SESSION_WORDS + BEHIND],
        session_bytes: fill(random, SESSIONS * SESSION_BYTES + BEHIND),
        places: vec![77; 80],
        reply: fill(random, 4096),
    };
    assert_eq!(core::open(&mut state.words, &state.bytes, 0, VERSIONS, SIZE), 0);
    state
}

fn store_ok(state: &Memory) -> bool {
    layout::versions(&state.words, &state.bytes).is_some()
}

fn sessions_ok(state: &Memory) -> bool {
    state.words.len() > 2 && layout::sessions_ok(&state.session_words, &state.session_bytes, state.words[2])
}

/// A good state with versions, watches and queues, made by requests.
fn lived(random: &mut Random) -> Memory {
    let mut state = open(random);
    let send = |state: &mut Memory, session: usize, words: &[&[u8]]| {
        let answer = state.request(session, &core::array(words));
        assert!(answer.number == 0 || answer.number == 6, "a good state answered number {}", answer.number);
    };
    for _ in 0..1 + random.below(50) {
        let key = *random.pick(&KEYS);
        match random.below(4) {
            0 => send(&mut state, 0, &[b"DEL", key]),
            1 => send(&mut state, 1, &[b"SET", key, b""]),
            _ => send(&mut state, 2, &[b"SET", key, b"value"]),
        }
    }
    let full: Vec<&[u8]> = [b"WATCH".as_slice()].into_iter().chain(b"0123456789abcdefghijklmnopqrstuv".chunks(1)).collect();
    for session in 0..SESSIONS {
        if random.once_in(8) {
            send(&mut state, session, &full);
        } else if random.once_in(2) {
            send(&mut state, session, &[b"WATCH", KEYS[random.below(5)], KEYS[5 + random.below(5)], KEYS[random.below(10)]]);
        }
        // a write behind the watches: some of them meet a conflict
        if random.once_in(8) {
            send(&mut state, session, &[b"SET", *random.pick(&KEYS), b"v"]);
        }
        if random.once_in(2) {
            send(&mut state, session, &[b"MULTI"]);
            for _ in 0..1 + random.below(4) {
                match random.below(7) {
                    0 | 1 => send(&mut state, session, &[b"PING"]),
                    2 => send(&mut state, session, &[b"incr", b"n"]),
                    3 => send(&mut state, session, &[b"INCRBY", b"n", b"no number"]),
                    // not queued: it marks the session
                    4 => send(&mut state, session, &[b"GET"]),
                    _ => send(&mut state, session, &[*random.pick(&[b"SET", b"set"]), *random.pick(&KEYS), b"queued"]),
                }
            }
        }
    }
    assert!(store_ok(&state) && sessions_ok(&state), "the calls left good memory");
    readings_agree(&state);
    state
}

/// The walk and the readings give the live keys that the layout shows.
fn readings_agree(state: &Memory) {
    let versions = layout::versions(&state.words, &state.bytes).expect("a good store");
    let newest = |i: usize| i == 0 || versions[i - 1].0 != versions[i].0;
    let due: Vec<(&[u8], &[u8])> =
        (0..versions.len()).filter(|&i| newest(i)).filter_map(|i| Some((versions[i].0.as_slice(), versions[i].2.as_deref()?))).collect();
    if core::table(&state.words, &state.bytes).as_ref() != Ok(&due) {
        fail("the walk over a good store", "not the live keys");
    }
    for key in KEYS {
        let value = due.iter().find(|entry| entry.0 == key).map(|entry| entry.1);
        if core::read(&state.words, &state.bytes, key) != Ok(value) {
            fail("a reading of a good store", "not the newest value");
        }
    }
}

const HUGE: [u64; 6] = [u64::MAX, u64::MAX - 1, 1 << 63, 1 << 62, 1 << 32, 100_000];

/// A session that has this many watched keys, or queued commands, at least.
fn session_with(state: &Memory, random: &mut Random, word: usize, least: u64) -> Option<usize> {
    let from = random.below(SESSIONS);
    (0..SESSIONS).map(|i| (from + i) % SESSIONS * SESSION_WORDS).find(|at| least <= state.session_words[at + word])
}

/// Two versions of one key, one behind the other.
fn twins(state: &Memory, random: &mut Random) -> Option<usize> {
    let found = layout::versions(&state.words, &state.bytes)?;
    let places: Vec<usize> = (1..found.len()).filter(|&i| found[i - 1].0 == found[i].0).collect();
    (!places.is_empty()).then(|| *random.pick(&places))
}

type Damage = fn(&mut Memory, &mut Random) -> Option<()>;

fn row(state: &Memory, random: &mut Random) -> Option<usize> {
    (state.words[0] > 0).then(|| 5 + 4 * random.below(state.words[0] as usize))
}

/// Every kind of state that the documents list under 9. A damage that cannot be done to a state answers `None`.
const DAMAGES: [(&str, Damage); 39] = [
    ("count above its capacity", |s, r| Some(s.words[0] = s.words[3] + 1 + r.below(9) as u64)),
    ("count of any size", |s, r| Some(s.words[0] = *r.pick(&HUGE))),
    ("a version left out of the count", |s, _| Some(s.words[0] = s.words[0].checked_sub(1)?)),
    ("bytes used above their capacity", |s, r| Some(s.words[1] = s.words[4] + 1 + r.below(9) as u64)),
    ("bytes used of any size", |s, r| Some(s.words[1] = *r.pick(&HUGE))),
    ("a gap behind the last version", |s, _| Some(s.words[1] += 1)),
    ("the last version past the bytes used", |s, _| Some(s.words[1] = s.words[1].checked_sub(1)?)),
    ("last sequence below a version's", |s, _| Some(s.words[2] = s.words[2].checked_sub(1)?)),
    ("capacity in versions above the buffer", |s, r| Some(s.words[3] = (VERSIONS + 2 + r.below(9)) as u64)),
    ("capacity in versions of any size", |s, r| Some(s.words[3] = *r.pick(&HUGE))),
    ("capacity in bytes above the buffer", |s, r| Some(s.words[4] = (SIZE + BEHIND + 1 + r.below(9)) as u64)),
    ("capacity in bytes of any size", |s, r| Some(s.words[4] = *r.pick(&HUGE))),
    ("fewer words than the capacity needs", |s, r| Some(s.words.truncate(5 + 4 * VERSIONS - 1 - r.below(4 * VERSIONS)))),
    ("fewer words than the header", |s, r| Some(s.words.truncate(r.below(5)))),
    ("fewer bytes than the capacity", |s, r| Some(s.bytes.truncate(SIZE - 1 - r.below(SIZE)))),
    ("a version that starts late", |s, r| row(s, r).map(|i| s.words[i] += 1)),
    ("a version that starts anywhere", |s, r| row(s, r).map(|i| s.words[i] = *r.pick(&HUGE))),
    ("a key one longer", |s, r| row(s, r).map(|i| s.words[i + 1] += 1)),
    ("a key of any length", |s, r| row(s, r).map(|i| s.words[i + 1] = *r.pick(&HUGE))),
    ("a value two longer", |s, r| row(s, r).map(|i| s.words[i + 2] += 2)),
    ("a value of any length", |s, r| row(s, r).map(|i| s.words[i + 2] = *r.pick(&HUGE))),
    ("a sequence above the last", |s, r| row(s, r).map(|i| s.words[i + 3] = s.words[2] + 1 + r.below(3) as u64)),
    ("a version that stands twice", |s, r| twins(s, r).map(|i| s.words[8 + 4 * i] = s.words[4 + 4 * i])),
    ("sequences of a key ascending", |s, r| twins(s, r).map(|i| s.words.swap(8 + 4 * i, 4 + 4 * i))),
    ("keys out of order", |s, _| {
        let found = layout::versions(&s.words, &s.bytes)?;
        let i = (1..found.len()).find(|&i| !found[i].0.is_empty() && !found[i - 1].0.is_empty() && found[i - 1].0 != found[i].0)?;
        Some(s.bytes[s.words[1 + 4 * i] as usize] = 255)
    }),
    ("more than 32 watched keys", |s, r| session_with(s, r, WATCHED, 0).map(|at| s.session_words[at + WATCHED] = if r.once_in(2) { 33 } else { *r.pick(&HUGE) })),
    ("watched keys beyond their bytes", |s, r| session_with(s, r, WATCHED, 1).map(|at| s.session_words[at + WATCH_LENGTHS] = if r.once_in(2) { 2049 } else { *r.pick(&HUGE) })),
    ("watched keys out of order", |s, r| {
        let at = session_with(s, r, WATCHED, 2)?;
        let bytes = at / SESSION_WORDS * SESSION_BYTES;
        s.session_words[at + WATCH_LENGTHS..][..2].fill(2);
        Some(s.session_bytes[bytes..bytes + 4].copy_from_slice(b"zzaa"))
    }),
    ("a watched key that stands twice", |s, r| {
        let at = session_with(s, r, WATCHED, 2)?;
        let bytes = at / SESSION_WORDS * SESSION_BYTES;
        s.session_words[at + WATCH_LENGTHS..][..2].fill(2);
        Some(s.session_bytes[bytes..bytes + 4].copy_from_slice(b"aaaa"))
    }),
    ("a sequence of a watched key above the last", |s, r| {
        let at = session_with(s, r, WATCHED, 1)?;
        let key = r.below(s.session_words[at + WATCHED] as usize);
        Some(s.session_words[at + WATCH_SEQUENCES + key] = s.words[2] + 1 + r.below(3) as u64)
    }),
    ("more than 64 queued commands", |s, r| session_with(s, r, QUEUED, 1).map(|at| s.session_words[at + QUEUED] = if r.once_in(2) { 65 } else { *r.pick(&HUGE) })),
    ("a queued command without arguments", |s, r| session_with(s, r, QUEUED, 1).map(|at| s.session_words[at + ARGUMENT_COUNTS] = 0)),
    ("more than 512 queued arguments", |s, r| session_with(s, r, QUEUED, 1).map(|at| s.session_words[at + ARGUMENT_COUNTS] = if r.once_in(2) { 513 } else { *r.pick(&HUGE) })),
    ("queued arguments beyond their bytes", |s, r| session_with(s, r, QUEUED, 1).map(|at| s.session_words[at + ARGUMENT_LENGTHS] = if r.once_in(2) { 8193 } else { *r.pick(&HUGE) })),
    ("a queue outside MULTI", |s, r| session_with(s, r, QUEUED, 1).map(|at| s.session_words[at] = 0)),
    ("a queued name that is none of the eleven", |s, r| {
        let at = session_with(s, r, QUEUED, 1)?;
        Some(s.session_bytes[at / SESSION_WORDS * SESSION_BYTES + WATCH_BYTES] = *r.pick(b"\x00Q!\xff"))
    }),
    ("a queued command of wrong argument count", |s, r| {
        let at = session_with(s, r, QUEUED, 1)?;
        let first = at / SESSION_WORDS * SESSION_BYTES + WATCH_BYTES;
        // another name that is as long and may be queued, but not with these arguments
        let name: &[u8] = match s.session_bytes[first] {
            b'P' => b"ECHO",
            b'i' => b"mset",
            b'S' => b"GET",
            b's' => b"get",
            _ => return None,
        };
        s.session_words[at + FAILED] = r.below(2) as u64;
        Some(s.session_bytes[first..][..name.len()].copy_from_slice(name))
    }),
    ("a queued SET with options", |s, r| {
        let at = session_with(s, r, QUEUED, 2)?;
        if !b"Ss".contains(&s.session_bytes[at / SESSION_WORDS * SESSION_BYTES + WATCH_BYTES]) {
            return None;
        }
        s.session_words[at + FAILED] = r.below(2) as u64;
        // the command behind SET becomes its options
        let queued = s.session_words[at + QUEUED] as usize;
        let counts = &mut s.session_words[at + ARGUMENT_COUNTS..][..queued];
        counts[1] += counts[0];
        counts.copy_within(1.., 0);
        Some(s.session_words[at + QUEUED] -= 1)
    }),
    ("sessions cut short", |s, r| {
        let cut = 1 + r.below(2000);
        match r.once_in(2) {
            true => Some(s.session_words.truncate(SESSIONS * SESSION_WORDS - cut)),
            false => Some(s.session_bytes.truncate(SESSIONS * SESSION_BYTES - cut)),
        }
    }),
];

/// Changes of the sequences that leave a good state.
const HARMLESS: [(&str, Damage); 2] = [
    ("sequences of watched keys equal to the last", |s, r| {
        let at = session_with(s, r, WATCHED, 1)?;
        let count = s.session_words[at + WATCHED] as usize;
        Some(s.session_words[at + WATCH_SEQUENCES..][..count].fill(s.words[2]))
    }),
    ("a sequence above the last behind the watched keys", |s, r| {
        let at = r.below(SESSIONS) * SESSION_WORDS;
        let count = s.session_words[at + WATCHED] as usize;
        let behind = if r.once_in(2) { count } else { count + r.below(32) };
        (behind < 32).then(|| s.session_words[at + WATCH_SEQUENCES + behind] = s.words[2] + 1 + r.below(3) as u64)
    }),
];

const REQUESTS: [&[u8]; 10] = [
    b"PING\r\n", b"SET a 1\r\n", b"", b"*1\r\n", b"EXEC\r\n", b"QUIT\r\n", b"*x\r\n", b"WATCH q\r\n", b"MULTI\r\n", b"*99\r\n",
];

fn fail(what: &str, detail: &str) -> ! {
    println!("damage: {what}: {detail}");
    exit(1)
}

/// A request on a damaged state: the number, nothing used, the reply buffer zero, all else as it was.
fn refused_request(state: &Memory, what: &str, random: &mut Random) {
    let session = if random.once_in(8) { 16 + random.below(3) } else { random.below(SESSIONS) };
    let mut after = state.clone();
    let answer = after.request(session, *random.pick(&REQUESTS));
    let number = if session < SESSIONS { 9 } else { 1 };
    if answer != (Answer { number, used: 0, reply: 0 }) {
        fail(what, &format!("session {session}: {answer:?} in place of number {number}"));
    }
    if !after.same_lent(state) || after.places != state.places {
        fail(what, "lent memory changed");
    }
    if after.reply.iter().any(|b| *b != 0) {
        fail(what, "the reply buffer is not zero");
    }
}

/// A preview on a damaged state: the number, no verdict, the reply buffer zero, all else as it was.
fn refused_preview(state: &Memory, what: &str, random: &mut Random) {
    let session = if random.once_in(8) { 16 + random.below(3) } else { random.below(SESSIONS) };
    let mut after = state.clone();
    let previewed = after.preview(session);
    let number = if session < SESSIONS { 9 } else { 1 };
    if previewed != (Previewed { number, verdict: 255, reply: 0, last: 0 }) {
        fail(what, &format!("session {session}: {previewed:?} in place of number {number}"));
    }
    if !after.same_lent(state) || after.reply.iter().any(|b| *b != 0) {
        fail(what, "a preview changed lent memory, or its reply buffer is not zero");
    }
}

/// A preview on a good state, with a reply buffer of any length: EXEC on a copy gives what it tells.
fn previewed(state: &mut Memory, random: &mut Random) -> Told {
    let session = random.below(SESSIONS);
    state.reply.truncate(if random.once_in(2) { 4096 } else { random.below(80) });
    state.reply.fill(170);
    let mut kept = state.clone();
    let told = Told::new(state.preview(session), state, &kept);
    told.must_come_true_on(&mut kept, session);
    told
}

/// The calls that are lent the store alone.
fn refused_store(state: &Memory, what: &str) {
    let group = lent(&[Plain { read: None, writes: vec![(b"a".to_vec(), Some(b"1".to_vec()))], checks: vec![] }]);
    let mut after = state.clone();
    let mut verdicts = [170u8; 3];
    let number = core::group(&group.members, &group.parts, &group.data, &mut verdicts, &mut after.words, &mut after.bytes);
    if number != 9 || verdicts != [170; 3] || !after.same_lent(state) {
        fail(what, &format!("a group call returned {number}, verdicts {verdicts:?}"));
    }
    if core::read(&state.words, &state.bytes, b"a") != Err(9) || core::entry(&state.words, &state.bytes, 0).number != 9 {
        fail(what, "a reading did not return 9");
    }
}

/// Each kind of damage in turn.
fn damage_states(random: &mut Random, count: usize) {
    let mut done: BTreeMap<&str, usize> = BTreeMap::new();
    let mut good = lived(random);
    let mut made = 0;
    let mut tries = 0;
    while made < count {
        if tries % 500 == 0 {
            good = lived(random);
        }
        let (what, damage) = DAMAGES[tries % DAMAGES.len()];
        tries += 1;
        let mut state = good.clone();
        if damage(&mut state, random).is_none() {
            continue;
        }
        let store_ok = store_ok(&state);
        // A damage may by chance give another good state, as a longer key before a version without bytes.
        if store_ok && sessions_ok(&state) {
            continue;
        }
        refused_request(&state, what, random);
        refused_preview(&state, what, random);
        if !store_ok {
            refused_store(&state, what);
        }
        *done.entry(what).or_default() += 1;
        made += 1;
    }
    for (what, _) in DAMAGES {
        if done.get(what).copied().unwrap_or(0) * DAMAGES.len() * 10 < count {
            fail(what, "this kind was hardly met");
        }
    }
    println!("damage: {made} damaged states of {} kinds, each refused and left as it was", done.len());
}

/// Each harmless change in turn: PING is answered, and a preview comes true.
fn harmless_states(random: &mut Random, count: usize) {
    let mut met: BTreeMap<(u64, u64), usize> = BTreeMap::new();
    let mut good = lived(random);
    let mut made = 0;
    let mut tries = 0;
    while made < count {
        if tries % 20 == 0 {
            good = lived(random);
        }
        let (what, change) = HARMLESS[tries % HARMLESS.len()];
        tries += 1;
        let mut state = good.clone();
        if change(&mut state, random).is_none() {
            continue;
        }
        let answer = state.request(random.below(SESSIONS), b"PING\r\n");
        if answer.number != 0 {
            fail(what, &format!("number {}", answer.number));
        }
        let told = previewed(&mut state, random).previewed;
        *met.entry((told.number, told.verdict)).or_default() += 1;
        made += 1;
    }
    println!("damage: {made} states with sequences at the last, or above it behind the watched keys, none refused");
    if !met.keys().eq(&[(0, 0), (0, 1), (0, 255), (3, 255), (6, 255)]) {
        fail("previews", &format!("not each outcome was met: {met:?}"));
    }
    println!("damage: previews of these states came true, by number and verdict: {met:?}");
}

/// Any word set to any value: 9 exactly where the layout says so.
fn random_words(random: &mut Random, count: usize) {
    let mut good = lived(random);
    let (mut nines, mut others) = (0, 0);
    for i in 0..count {
        if i % 500 == 0 {
            good = lived(random);
        }
        let mut state = good.clone();
        let value = if random.once_in(3) { *random.pick(&HUGE) } else { random.below(70) as u64 };
        if random.once_in(2) {
            let rows = 5 + 4 * state.words[0] as usize;
            state.words[random.below(rows)] = value;
        } else {
            let session = random.below(SESSIONS) * SESSION_WORDS;
            let first = *random.pick(&[0, WATCH_LENGTHS, WATCH_SEQUENCES, ARGUMENT_COUNTS, ARGUMENT_LENGTHS]);
            state.session_words[session + first + random.below(4)] = value;
        }
        let bad = !(store_ok(&state) && sessions_ok(&state));
        if bad {
            refused_preview(&state, "a word of any value", random);
        } else {
            previewed(&mut state.clone(), random);
        }
        let mut after = state.clone();
        let answer = after.request(random.below(SESSIONS), *random.pick(&REQUESTS));
        if bad != (answer.number == 9) {
            fail("a word of any value", &format!("number {} where 9 is {bad}", answer.number));
        }
        if answer.number != 0 && answer.number != 4 && !after.same_lent(&state) {
            fail("a word of any value", "a number changed lent memory");
        }
        if answer.number == 0 && !(store_ok(&after) && sessions_ok(&after)) {
            fail("a word of any value", "a good state became a bad one");
        }
        *(if bad { &mut nines } else { &mut others }) += 1;
    }
    if nines == 0 || others == 0 {
        fail("a word of any value", "only one of both outcomes was met");
    }
    println!("damage: {count} states with a word of any value, {nines} of them refused, {others} not");
}

/// A group of random members over few keys; now and then one that is larger than a group may be.
fn any_group(random: &mut Random, last: u64) -> Vec<Plain> {
    let long = random.once_in(40);
    (0..random.below(6))
        .map(|_| Plain {
            read: (!random.once_in(3)).then(|| last.saturating_sub(random.below(4) as u64).saturating_add(random.below(2) as u64)),
            writes: (0..random.below(4))
                .map(|_| {
                    let length = if long && random.once_in(2) { *random.pick(&[524_288, 1_048_576, 1_048_577]) } else { random.below(30) };
                    (random.pick(&KEYS).to_vec(), (!random.once_in(4)).then(|| vec![b'v'; length]))
                })
                .collect(),
            checks: (0..random.below(3)).map(|_| random.pick(&KEYS).to_vec()).collect(),
        })
        .collect()
}

/// A fault of the group that gives 8.
fn break_group(group: &mut Group, verdicts: &mut Vec<u8>, random: &mut Random) {
    let member = Member { has_read: 0, read: 0, first_write: 0, writes: 0, first_check: 0, checks: 0 };
    // Each is beyond the data and beyond the rows of the table of parts.
    let any = [u64::MAX, u64::MAX - 3, 1 << 62, 1 << 63, (group.data.len() + group.parts.len()) as u64 + 2];
    let kind = random.below(6);
    match kind {
        0 => group.members.resize(65 + random.below(3), member),
        1 => group.members.push(member),
        2 => group.members.push(Member { first_write: *random.pick(&any) as usize, writes: 1, ..member }),
        3 => group.members.push(Member { writes: *random.pick(&any) as usize, ..member }),
        4 => group.members.push(Member { first_check: *random.pick(&any) as usize, checks: 1, ..member }),
        _ => {
            let row = group.parts.len().div_ceil(4);
            group.parts.resize(4 * row, 0);
            let mut part = [0, 0, 0, 1];
            part[random.below(4)] = *random.pick(&any);
            // A start at any place is no part outside as long as it has no length.
            part[1] = part[1].max(1);
            part[3] = part[3].max(2);
            group.parts.extend(part);
            group.members.push(Member { first_write: row, writes: 1, ..member });
        }
    }
    match kind {
        1 => verdicts.truncate(group.members.len() - 1),
        _ => verdicts.resize(verdicts.len().max(group.members.len()), 170),
    }
}

fn groups(random: &mut Random, count: usize) {
    let mut met: BTreeMap<u8, usize> = BTreeMap::new();
    let mut eights = 0;
    for _ in 0..count {
        let most_versions = random.below(12);
        let most_bytes = if random.once_in(20) { 2_200_000 } else { random.below(120) };
        let last = *random.pick(&[0, 5, u64::MAX - 6, u64::MAX - 1, u64::MAX]);
        let mut words = vec![3; 5 + 4 * most_versions + BEHIND];
        let mut bytes = vec![7; most_bytes + BEHIND];
        assert_eq!(core::open(&mut words, &bytes, last, most_versions, most_bytes), 0);
        let mut plain = Store { versions: Vec::new(), last, most_versions, most_bytes };
        for _ in 0..3 {
            let members = any_group(random, plain.last);
            let mut group = lent(&members);
            let mut verdicts = vec![170; members.len() + random.below(3)];
            let (words_before, bytes_before) = (words.clone(), bytes.clone());
            if random.once_in(4) {
                break_group(&mut group, &mut verdicts, random);
                let before = verdicts.clone();
                let number = core::group(&group.members, &group.parts, &group.data, &mut verdicts, &mut words, &mut bytes);
                if number != 8 || (&before, &words_before, &bytes_before) != (&verdicts, &words, &bytes) {
                    fail("a group with a fault", &format!("number {number}, or something changed: {:?}", group.members));
                }
                eights += 1;
                continue;
            }
            let number = core::group(&group.members, &group.parts, &group.data, &mut verdicts, &mut words, &mut bytes);
            let mut expected = plain.judge(&members);
            expected.iter().for_each(|v| *met.entry(*v).or_default() += 1);
            expected.resize(verdicts.len(), 170);
            if number != 0 || verdicts != expected {
                fail("a group", &format!("number {number}, verdicts {verdicts:?} in place of {expected:?}"));
            }
            let (mut words_due, mut bytes_due) = (words_before, bytes_before);
            layout::store(&plain.versions, plain.last, &mut words_due, &mut bytes_due);
            if words != words_due || bytes != bytes_due {
                fail("a group", "the store is not the one that its accepted writes make");
            }
        }
    }
    if eights == 0 || [0, 1, 6, 7, 255].iter().any(|v| !met.contains_key(v)) {
        fail("groups", &format!("not every verdict was met: {met:?}, {eights} with number 8"));
    }
    println!("damage: {} groups, verdicts {met:?}, {eights} with number 8, stores and verdict bytes as document 01 has them", 3 * count);
}

fn main() {
    let words: Vec<u64> = std::env::args().skip(1).map(|w| w.parse().expect("a number")).collect();
    let [seed, states, group_runs] = words.as_slice() else {
        eprintln!("usage: damage SEED STATES GROUPS");
        exit(2)
    };
    let mut random = Random::new(*seed);
    damage_states(&mut random, *states as usize);
    harmless_states(&mut random, *states as usize / 10);
    random_words(&mut random, *states as usize / 2);
    groups(&mut random, *group_runs as usize);
}
