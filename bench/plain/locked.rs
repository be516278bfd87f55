//! The link behind its lock, one call a hold, and the worker that admits and sends.

use crate::frame::Version;
use crate::journal::{Entry, Journal};
use crate::link::{Link, Turn};
use crate::output::Output;
use crate::records::{self, Offer};
use std::io::Write;
use std::sync::atomic::{AtomicBool, AtomicU64, Ordering};
use std::sync::mpsc::Receiver;
use std::sync::{Mutex, MutexGuard, PoisonError};
use std::thread;

/// The places of the queue.
pub const CAPACITY: usize = 256;

/// The version of a link behind its lock, and of its audit.
pub const VERSION: Version = Version::Two;

pub struct Locked<W> {
    pub link: Link,
    pub journal: Journal,
    pub uplink: W,
    /// The queue until the link has ended, and how many offers of each worker were popped.
    pub queue: Option<Receiver<Offer>>,
    pub popped: Vec<u64>,
}

pub type Port<W> = Mutex<Locked<W>>;

#[derive(PartialEq, Eq)]
pub enum Admission {
    Admitted,
    Empty,
    Spent,
}

#[derive(Clone, Copy, PartialEq, Eq)]
pub enum LinkEnd {
    Drained,
    Broken,
    Spent,
}

pub fn hold<T>(lock: &Mutex<T>) -> MutexGuard<'_, T> {
    lock.lock().unwrap_or_else(PoisonError::into_inner)
}

impl<W: Write> Locked<W> {
    /// Answers a line of a control connection; whether it was an event.
    pub fn command(&mut self, line: &[u8], output: &mut Output) -> bool {
        let is_event = self.link.answer_control(line, output);
        if is_event {
            self.journal.push(Entry::Command(line.into()));
        }
        is_event
    }

    pub fn admit(&mut self) -> Admission {
        if self.link.is_spent() {
            return Admission::Spent;
        }
        let Some(Offer { worker, name, record }) = self.queue.as_ref().and_then(|queue| queue.try_recv().ok()) else {
            return Admission::Empty;
        };
        self.popped[worker] += 1;
        self.link.arrive(name, records::payload(&record));
        self.journal.push(Entry::Arrival(record));
        Admission::Admitted
    }

    /// A turn. The count of writes is odd while one is made.
    pub fn turn(&mut self, writes: &AtomicU64) -> Turn {
        writes.fetch_add(1, Ordering::Relaxed);
        let turn = self.link.turn_on(&mut self.uplink);
        writes.fetch_add(1, Ordering::Relaxed);
        match turn {
            Turn::Wrote(count) => self.journal.push(Entry::Write(count)),
            Turn::Torn => self.journal.push(Entry::Torn),
            Turn::Idle | Turn::Again | Turn::Broken | Turn::Spent => (),
        }
        turn
    }
}

/// A round admits until the queue is empty, at most as many as it has places, and makes one turn. It waits where there
/// was nothing to do, and ends where the life is spent, or where there was nothing to do after the stop.
pub fn run_link<W: Write>(port: &Port<W>, stop: &AtomicBool, writes: &AtomicU64) -> LinkEnd {
    loop {
        let is_stopped = stop.load(Ordering::Acquire);
        let mut admission = Admission::Admitted;
        for _ in 0..CAPACITY {
            admission = hold(port).admit();
            if admission != Admission::Admitted {
                break;
            }
        }
        let turn = if admission == Admission::Spent { Turn::Spent } else { hold(port).turn(writes) };
        let end = match turn {
            Turn::Spent => return LinkEnd::Spent,
            Turn::Idle => LinkEnd::Drained,
            Turn::Broken => LinkEnd::Broken,
            Turn::Wrote(_) | Turn::Torn | Turn::Again => continue,
        };
        if admission == Admission::Empty {
            if is_stopped {
                return end;
            }
            thread::park();
        }
    }
}
