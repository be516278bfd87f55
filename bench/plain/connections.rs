//! The connections that are open, and how they are ended.

use crate::locked::hold;
use std::io::{self, Read, Write};
use std::net::{Shutdown, TcpListener, TcpStream};
use std::os::fd::OwnedFd;
use std::sync::atomic::{AtomicBool, AtomicU64, Ordering};
use std::sync::{Arc, Mutex};
use std::thread;
use std::time::{Duration, Instant};

/// How long a reply, or a write call on the uplink, may wait once the end has begun.
const GRACE: Duration = Duration::from_secs(5);

/// How many bytes a connection may give once the end has begun.
const LAST_BYTES: usize = 1 << 24;

/// How many bytes of the uplink's peer are read away.
const MAX_AWAY: usize = 1 << 24;

#[derive(Clone, Copy, PartialEq, Eq)]
pub enum Kind {
    Control,
    Ingress,
}

struct Open {
    kind: Kind,
    number: usize,
    stream: Arc<TcpStream>,
}

struct State {
    open: Vec<Open>,
    has_link_ended: bool,
}

pub struct Connections {
    state: Mutex<State>,
    /// The listeners, as streams, which can be shut down: that wakes an accept which waits.
    listeners: Vec<TcpStream>,
    uplink: TcpStream,
    is_ending: AtomicBool,
    /// Odd while a write call on the uplink is made.
    pub writes: AtomicU64,
    is_verbose: bool,
}

impl Connections {
    pub fn new(listeners: [&TcpListener; 2], uplink: &TcpStream, is_verbose: bool) -> io::Result<Arc<Connections>> {
        let mut streams = Vec::new();
        for listener in listeners {
            streams.push(TcpStream::from(OwnedFd::from(listener.try_clone()?)));
        }
        Ok(Arc::new(Connections {
            state: Mutex::new(State { open: Vec::new(), has_link_ended: false }),
            listeners: streams,
            uplink: uplink.try_clone()?,
            is_ending: AtomicBool::new(false),
            writes: AtomicU64::new(0),
            is_verbose,
        }))
    }

    pub fn tell(&self, text: std::fmt::Arguments) {
        if self.is_verbose {
            let _ = io::stderr().write_all(format!("{text}\n").as_bytes());
        }
    }

    pub fn is_ending(&self) -> bool {
        self.is_ending.load(Ordering::Acquire)
    }

    /// A connection is there, which may have to end at once.
    pub fn add(&self, kind: Kind, number: usize, stream: &Arc<TcpStream>) {
        let mut state = hold(&self.state);
        state.open.push(Open { kind, number, stream: stream.clone() });
        if self.is_ending() {
            let _ = stream.shutdown(Shutdown::Read);
        }
        if state.has_link_ended && kind == Kind::Ingress {
            let _ = stream.shutdown(Shutdown::Both);
        }
    }

    /// A connection is over.
    pub fn remove(&self, kind: Kind, number: usize) {
        hold(&self.state).open.retain(|open| open.kind != kind || open.number != number);
    }

    fn shut(&self, kinds: &[Kind], how: Shutdown) {
        for open in hold(&self.state).open.iter().filter(|open| kinds.contains(&open.kind)) {
            let _ = open.stream.shutdown(how);
        }
    }

    /// The link has ended: so do the ingress connections.
    pub fn end_link(&self) {
        hold(&self.state).has_link_ended = true;
        self.shut(&[Kind::Ingress], Shutdown::Both);
    }

    /// Accepts no more, and lets all connections give only what has come.
    pub fn end(self: &Arc<Self>) {
        if self.is_ending.swap(true, Ordering::AcqRel) {
            return;
        }
        for listener in &self.listeners {
            let _ = listener.shutdown(Shutdown::Both);
        }
        self.shut(&[Kind::Control, Kind::Ingress], Shutdown::Read);
        let connections = self.clone();
        let _ = thread::Builder::new().spawn(move || connections.end_what_waits());
    }

    /// Ends replies that are not written in time, and an uplink that takes nothing for so long.
    fn end_what_waits(&self) {
        let mut seen = self.writes.load(Ordering::Relaxed);
        thread::sleep(GRACE);
        self.shut(&[Kind::Control], Shutdown::Both);
        loop {
            let writes = self.writes.load(Ordering::Relaxed);
            if writes == seen && writes % 2 == 1 {
                let _ = self.uplink.shutdown(Shutdown::Both);
                return;
            }
            seen = writes;
            thread::sleep(GRACE);
        }
    }

    /// Waits for the end of standard input in a thread that nobody waits for.
    pub fn end_at_eof(self: &Arc<Self>) -> io::Result<()> {
        let connections = self.clone();
        thread::Builder::new().spawn(move || {
            let _ = io::copy(&mut io::stdin(), &mut io::sink());
            connections.tell(format_args!("standard input has ended"));
            connections.end();
        })?;
        Ok(())
    }
}

/// A connection for reading, which gives at most that many bytes more once the end has begun.
pub struct Source<'a> {
    stream: &'a TcpStream,
    connections: &'a Connections,
    left: usize,
}

impl<'a> Source<'a> {
    pub fn new(stream: &'a TcpStream, connections: &'a Connections) -> Source<'a> {
        Source { stream, connections, left: LAST_BYTES }
    }
}

impl Read for Source<'_> {
    fn read(&mut self, buffer: &mut [u8]) -> io::Result<usize> {
        if !self.connections.is_ending() {
            return self.stream.read(buffer);
        }
        let most = buffer.len().min(self.left);
        let count = self.stream.read(&mut buffer[..most])?;
        self.left -= count;
        Ok(count)
    }
}

/// Reads away what the peer of the uplink sent, until it ends or for a while: a connection that is closed with bytes
/// unread is reset, and its last frames may be lost.
pub fn read_away(uplink: &mut TcpStream) {
    let until = Instant::now() + GRACE;
    let mut buffer = vec![0; 1 << 16];
    let mut left = MAX_AWAY;
    while left > 0 {
        let rest = until.saturating_duration_since(Instant::now());
        if rest.is_zero() || uplink.set_read_timeout(Some(rest)).is_err() {
            return;
        }
        match uplink.read(&mut buffer) {
            Ok(count) if count > 0 => left = left.saturating_sub(count),
            Err(fault) if fault.kind() == io::ErrorKind::Interrupted => (),
            _ => return,
        }
    }
}
