//! One thread that serves consoles without blocking: each whole request is one call of the registry, PREVIEW a preview.
use crate::core::{at_front, Done, Registry, SESSIONS};
use std::io::{self, ErrorKind, Read, Write};
use std::net::{Shutdown, TcpListener, TcpStream};
use std::time::{Duration, Instant};

/// Bytes read from a console in one turn.
const READ_AT_ONCE: usize = 65_536;
/// A console that does not read its replies is not served while so many bytes wait for it.
const MOST_UNSENT: usize = 1_048_576;
/// How long a closed console may take to read what is left for it.
const LEAVE_WITHIN: Duration = Duration::from_secs(2);
/// The server's own request, as an array and inline.
const PREVIEW: [&[u8]; 3] = [b"*1\r\n$7\r\nPREVIEW\r\n", b"PREVIEW\r\n", b"PREVIEW\n"];

/// What a number means to the console that met it.
pub fn meaning(number: u64) -> &'static str {
    match number {
        1 => "no such session",
        2 => "the request has too many arguments",
        3 => "the reply is too long",
        4 => "the queue is full",
        5 => "the watch is full",
        6 => "the store is full",
        7 => "the sequence numbers are used up",
        8 => "the group does not fit",
        9 => "the store or a session is damaged",
        _ => "unknown number",
    }
}

/// The line that a console gets before a number closes it.
pub fn number_line(number: u64) -> Vec<u8> {
    format!("-ERR number {number}: {}\r\n", meaning(number)).into_bytes()
}

/// The answer to PREVIEW, an array of three: the verdict, the last sequence, and what EXEC would send.
fn preview_reply(session: usize, registry: &mut Registry) -> Vec<u8> {
    let (told, reply) = registry.preview(session);
    let mut out = format!("*3\r\n:{}\r\n:{}\r\n", told.verdict, told.last).into_bytes();
    match told.number {
        0 => out.extend_from_slice(reply),
        number => out.extend(number_line(number)),
    }
    out
}

/// Bytes on their way to a console.
struct Sending {
    stream: TcpStream,
    unsent: Vec<u8>,
}

impl Sending {
    /// Sends what the connection takes now; whether it took something.
    fn send(&mut self) -> io::Result<bool> {
        let mut sent = 0;
        while sent < self.unsent.len() {
            match self.stream.write(&self.unsent[sent..]) {
                Ok(0) => return Err(ErrorKind::WriteZero.into()),
                Ok(n) => sent += n,
                Err(e) if e.kind() == ErrorKind::WouldBlock => break,
                Err(e) if e.kind() == ErrorKind::Interrupted => {}
                Err(e) => return Err(e),
            }
        }
        self.unsent.drain(..sent);
        Ok(sent > 0)
    }
}

/// A console with a session.
struct Console {
    to: Sending,
    /// Bytes of requests that are not answered yet.
    held: Vec<u8>,
    /// The console sends no more.
    ended: bool,
}

/// A connection that gets its last bytes and is then closed.
struct Leaving {
    to: Sending,
    until: Instant,
    told: bool,
}

/// How a console's turn ended.
enum Turn {
    Idle,
    Worked,
    /// Its session is over; what is unsent is still sent.
    Over,
    /// The connection is gone.
    Gone,
}

pub struct Server {
    listener: TcpListener,
    registry: Registry,
    /// A longer request than this is not held.
    most_held: usize,
    consoles: [Option<Console>; SESSIONS],
    leaving: Vec<Leaving>,
    chunk: Vec<u8>,
}

impl Server {
    pub fn new(listener: TcpListener, registry: Registry, most_held: usize) -> io::Result<Server> {
        listener.set_nonblocking(true)?;
        Ok(Server { listener, registry, most_held, consoles: [const { None }; SESSIONS], leaving: Vec::new(), chunk: vec![0; READ_AT_ONCE] })
    }

    /// Serves until the process ends.
    pub fn run(&mut self) -> ! {
        let mut idle = 0u32;
        loop {
            idle = if self.turn() { 0 } else { idle.saturating_add(1) };
            pause(idle);
        }
    }

    /// One look at every connection; whether anything moved. Arrivals are seated last, on places whose consoles left before them.
    fn turn(&mut self) -> bool {
        let arrivals = self.accept();
        let mut worked = !arrivals.is_empty();
        for session in 0..SESSIONS {
            worked |= self.serve(session);
        }
        arrivals.into_iter().for_each(|stream| self.seat(stream));
        worked | self.finish_leaving()
    }

    fn accept(&self) -> Vec<TcpStream> {
        let mut arrivals = Vec::new();
        while let Ok((stream, _)) = self.listener.accept() {
            if stream.set_nonblocking(true).is_ok() {
                let _ = stream.set_nodelay(true);
                arrivals.push(stream);
            }
        }
        arrivals
    }

    fn seat(&mut self, stream: TcpStream) {
        let to = Sending { stream, unsent: Vec::new() };
        match self.consoles.iter_mut().find(|place| place.is_none()) {
            Some(place) => *place = Some(Console { to, held: Vec::new(), ended: false }),
            None => self.leave(to, b"-ERR max number of clients reached\r\n"),
        }
    }

    fn leave(&mut self, mut to: Sending, line: &[u8]) {
        to.unsent.extend_from_slice(line);
        self.leaving.push(Leaving { to, until: Instant::now() + LEAVE_WITHIN, told: false });
    }

    fn serve(&mut self, session: usize) -> bool {
        let Some(console) = &mut self.consoles[session] else { return false };
        let turn = console.turn(session, &mut self.registry, &mut self.chunk, self.most_held);
        if matches!(turn, Turn::Over | Turn::Gone) {
            self.registry.clear(session);
        }
        match turn {
            Turn::Idle => return false,
            Turn::Worked => {}
            Turn::Gone => self.consoles[session] = None,
            Turn::Over => {
                if let Some(console) = self.consoles[session].take() {
                    self.leave(console.to, b"");
                }
            }
        }
        true
    }

    fn finish_leaving(&mut self) -> bool {
        let before = self.leaving.len();
        let chunk = &mut self.chunk;
        self.leaving.retain_mut(|one| one.stays(chunk));
        before != self.leaving.len()
    }
}

impl Console {
    fn turn(&mut self, session: usize, registry: &mut Registry, chunk: &mut [u8], most_held: usize) -> Turn {
        let Ok(sent) = self.to.send() else { return Turn::Gone };
        if MOST_UNSENT <= self.to.unsent.len() {
            return if sent { Turn::Worked } else { Turn::Idle };
        }
        let Ok(received) = self.receive(chunk) else { return Turn::Gone };
        if !received && self.held.is_empty() && !self.ended {
            return if sent { Turn::Worked } else { Turn::Idle };
        }
        let (used, over) = self.answer(session, registry, most_held);
        match over || self.ended && used == 0 {
            true => Turn::Over,
            false if sent || received || used > 0 => Turn::Worked,
            false => Turn::Idle,
        }
    }

    /// Takes what the console has sent; whether there was something.
    fn receive(&mut self, chunk: &mut [u8]) -> io::Result<bool> {
        if self.ended {
            return Ok(false);
        }
        match self.to.stream.read(chunk) {
            Ok(0) => {
                self.ended = true;
                Ok(true)
            }
            Ok(n) => {
                self.held.extend_from_slice(&chunk[..n]);
                Ok(true)
            }
            Err(e) if matches!(e.kind(), ErrorKind::WouldBlock | ErrorKind::Interrupted) => Ok(false),
            Err(e) => Err(e),
        }
    }

    /// Answers the whole requests that are held: the bytes used, and whether the session is over.
    fn answer(&mut self, session: usize, registry: &mut Registry, most_held: usize) -> (usize, bool) {
        let mut at = 0;
        let mut over = false;
        while at < self.held.len() && !over && self.to.unsent.len() < MOST_UNSENT {
            if let Some(used) = at_front(&PREVIEW, &self.held[at..]) {
                self.to.unsent.extend(preview_reply(session, registry));
                at += used;
                continue;
            }
            match registry.request(session, &self.held[at..]) {
                Done::Waits => break,
                Done::Refused(number) => {
                    self.to.unsent.extend_from_slice(&number_line(number));
                    over = true;
                }
                Done::Answered { used, reply, over: last } => {
                    self.to.unsent.extend_from_slice(reply);
                    at += used;
                    over = last;
                }
            }
        }
        self.held.drain(..at);
        if !over && at == 0 && most_held < self.held.len() {
            self.to.unsent.extend_from_slice(format!("-ERR request longer than {most_held} bytes\r\n").as_bytes());
            over = true;
        }
        (at, over)
    }
}

impl Leaving {
    /// Sends the rest, says that no more comes, and waits for the console to close: closing with unread bytes would lose what was sent.
    fn stays(&mut self, chunk: &mut [u8]) -> bool {
        if self.until < Instant::now() || self.to.send().is_err() {
            return false;
        }
        if !self.to.unsent.is_empty() {
            return true;
        }
        if !self.told {
            self.told = true;
            if self.to.stream.shutdown(Shutdown::Write).is_err() {
                return false;
            }
        }
        match self.to.stream.read(chunk) {
            Ok(n) => n > 0,
            Err(e) => matches!(e.kind(), ErrorKind::WouldBlock | ErrorKind::Interrupted),
        }
    }
}

/// Turns without work cost less and less: std has no way to wait for several connections.
fn pause(idle: u32) {
    match idle {
        0 => {}
        1..=20 => std::thread::yield_now(),
        21..=500 => std::thread::sleep(Duration::from_micros(200)),
        _ => std::thread::sleep(Duration::from_millis(2)),
    }
}
