//! Two workers that queue records while the link's worker admits and sends them, each in a thread of its own.

use crate::journal::Journal;
use crate::link::Link;
use crate::locked::{CAPACITY, Locked, Port, VERSION, hold, run_link};
use crate::output::Output;
use crate::records::{self, Offer};
use std::fs::File;
use std::io::{self, ErrorKind, Read, Sink};
use std::os::fd::AsFd;
use std::sync::Mutex;
use std::sync::atomic::{AtomicBool, AtomicU64, Ordering};
use std::sync::mpsc::{Receiver, sync_channel};
use std::thread::scope;

const WORKERS: usize = 2;

/// How many records stand in the pattern that a worker reads again and again.
const PATTERN: usize = 90;

/// Gives a pattern that many times.
struct Again {
    pattern: Vec<u8>,
    rounds: u64,
}

impl Read for Again {
    fn read(&mut self, buffer: &mut [u8]) -> io::Result<usize> {
        if self.rounds == 0 {
            return Ok(0);
        }
        self.rounds -= 1;
        let count = self.pattern.len();
        buffer.get_mut(..count).ok_or(ErrorKind::Other)?.copy_from_slice(&self.pattern);
        Ok(count)
    }
}

/// Records for the flow a.
fn pattern(size: u16) -> Vec<u8> {
    let mut record = vec![1, b'a'];
    record.extend_from_slice(&size.to_be_bytes());
    record.resize(record.len() + usize::from(size), b'x');
    record.repeat(PATTERN)
}

fn to_stderr() -> io::Result<Output> {
    Ok(Output::new(File::from(io::stderr().as_fd().try_clone_to_owned()?)))
}

/// A link on which the flow a is open and funded, and whose writer takes all.
fn port(life: u64, queue: Receiver<Offer>) -> io::Result<Port<Sink>> {
    let journal = Journal::new(VERSION, life).ok_or(ErrorKind::OutOfMemory)?;
    let link = Link::new(VERSION, life, to_stderr()?);
    let mut locked = Locked { link, journal, uplink: io::sink(), queue: Some(queue), popped: vec![0; WORKERS] };
    let mut replies = to_stderr()?;
    for line in ["open a 1024 1", "mktkt 1 base", "fund 1 flow a"] {
        locked.command(line.as_bytes(), &mut replies);
    }
    Ok(Mutex::new(locked))
}

/// Reads that many patterns in each worker; how many records came to the link.
pub fn arrivals(size: u16, rounds: u64) -> io::Result<u64> {
    let (sender, receiver) = sync_channel(CAPACITY);
    let port = port(4 * (PATTERN * WORKERS) as u64 * rounds + 16, receiver)?;
    let (stop, writes) = (AtomicBool::new(false), AtomicU64::new(0));
    scope(|scope| {
        let link = scope.spawn(|| run_link(&port, &stop, &writes));
        let workers: Vec<_> = (0..WORKERS)
            .map(|worker| {
                let (queue, link) = (sender.clone(), link.thread().clone());
                let source = Again { pattern: pattern(size), rounds };
                scope.spawn(move || records::work(worker, source, &queue, || link.unpark()))
            })
            .collect();
        for worker in workers {
            let _ = worker.join();
        }
        stop.store(true, Ordering::Release);
        link.thread().unpark();
    });
    Ok(hold(&port).popped.iter().sum())
}
