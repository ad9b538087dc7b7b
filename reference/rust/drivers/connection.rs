//! One connection without its socket: the loop of `handle` over bytes that are handed in.
//! A child of `server`, so that it can use the private `Session`.

use super::Session;
use crate::db::Db;
use crate::resp::{self, Reply};

pub struct Connection<'a> {
    session: Session<'a>,
    /// Bytes of a request that is not whole yet.
    pub rest: Vec<u8>,
}

impl<'a> Connection<'a> {
    pub fn new(db: &'a Db) -> Self {
        Self {
            session: Session {
                db,
                multi: None,
                watch: None,
                multi_failed: false,
            },
            rest: Vec::new(),
        }
    }

    /// Answers every whole request. Where `handle` closes the connection, a new one takes its place.
    pub fn receive(&mut self, bytes: &[u8], out: &mut Vec<u8>) {
        self.rest.extend_from_slice(bytes);
        let buf = std::mem::take(&mut self.rest);
        let mut used = 0;
        loop {
            match resp::parse(&buf[used..]) {
                Ok(Some((args, len))) => {
                    used += len;
                    if args.is_empty() {
                        continue;
                    }
                    if args[0].eq_ignore_ascii_case(b"QUIT") {
                        Reply::ok().encode(out);
                        *self = Self::new(self.session.db);
                        return;
                    }
                    self.session.run(args).encode(out);
                }
                Ok(None) => break,
                Err(e) => {
                    Reply::Error(format!("ERR {e}")).encode(out);
                    *self = Self::new(self.session.db);
                    return;
                }
            }
        }
        self.rest = buf[used..].to_vec();
    }
}
