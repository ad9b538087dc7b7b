//! `frames` of document 01 over the published Rust: lines of a session and hexadecimal in, lines of replies out.
//!
//! Of the returned numbers it gives only 1, for a session above 15. It has no argument table, reply buffer, queue, watch or
//! store limit, so it never writes `!2`, `!3`, `!4`, `!5` or `!6`; `!7` to `!9` cannot come about in `frames`. Input for it must
//! meet none of them. INFO outside MULTI answers figures of the engine, so input for it leaves INFO out. EXEC goes by the snapshot
//! of the first WATCH, so input for it writes nothing between the two.
//!
//! With the argument `long` the two limits of 4,096 bytes, for a frame and for a rest, are lifted.

use std::io::{self, BufRead, BufWriter, Write};

use lsmkv::server::connection::Connection;

const LIMIT: usize = 4096;

fn hex_digit(b: u8) -> Option<u8> {
    match b {
        b'0'..=b'9' => Some(b - b'0'),
        b'a'..=b'f' => Some(b - b'a' + 10),
        _ => None,
    }
}

/// Session and bytes of a line of the form, or `None`.
fn given(line: &[u8], limit: usize) -> Option<(usize, Vec<u8>)> {
    let [a @ b'0'..=b'9', b @ b'0'..=b'9', b' ', text @ ..] = line else {
        return None;
    };
    if text.is_empty() || text.len() % 2 != 0 || text.len() / 2 > limit {
        return None;
    }
    let bytes: Option<Vec<u8>> = text
        .chunks(2)
        .map(|pair| Some(hex_digit(pair[0])? * 16 + hex_digit(pair[1])?))
        .collect();
    Some((((a - b'0') * 10 + (b - b'0')) as usize, bytes?))
}

fn main() -> io::Result<()> {
    let limit = match std::env::args().nth(1).as_deref() {
        Some("long") => usize::MAX,
        _ => LIMIT,
    };
    let db = lsmkv::open_at(0);
    let mut connections: Vec<Connection> = (0..16).map(|_| Connection::new(&db)).collect();
    let mut out = BufWriter::new(io::stdout().lock());
    for line in io::stdin().lock().split(b'\n') {
        let Some((session, bytes)) = given(&line?, limit) else {
            out.write_all(b"?\n")?;
            continue;
        };
        let mut replies = Vec::new();
        let mut mark = "";
        match connections.get_mut(session) {
            None => mark = "!1",
            Some(connection) => {
                connection.receive(&bytes, &mut replies);
                if connection.rest.len() > limit {
                    connection.rest.clear();
                    mark = "!";
                }
            }
        }
        write!(out, "{session:02} ")?;
        for b in &replies {
            write!(out, "{b:02x}")?;
        }
        if replies.is_empty() && mark.is_empty() {
            mark = "-";
        }
        writeln!(out, "{mark}")?;
    }
    out.flush()
}
