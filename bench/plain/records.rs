//! What comes on an ingress connection.

use crate::names::Name;
use crate::words;
use std::io::{self, ErrorKind, Read};
use std::sync::mpsc::SyncSender;

const ROOM: usize = 1 << 16;
const MAX_NAME: usize = 16;
const MAX_PAYLOAD: usize = 9000;

/// A record as it came, its name, and the number of its worker from 0.
pub struct Offer {
    pub worker: usize,
    pub name: Name,
    pub record: Box<[u8]>,
}

/// Where the payload of a whole record begins.
pub fn payload(record: &[u8]) -> &[u8] {
    &record[usize::from(record[0]) + 3..]
}

/// The name of a whole record.
pub fn name(record: &[u8]) -> &[u8] {
    &record[1..usize::from(record[0]) + 1]
}

/// Why a worker ended.
#[derive(Clone, Copy, Debug)]
pub enum Why {
    End,
    Cut,
    BadRecord,
    Fault,
    Stopped,
}

enum Front {
    Record(Name, usize),
    More,
    Bad,
}

/// What stands at the front of these bytes.
fn front(bytes: &[u8]) -> Front {
    let Some((count, rest)) = bytes.split_first() else { return Front::More };
    let count = usize::from(*count);
    if !(1..=MAX_NAME).contains(&count) {
        return Front::Bad;
    }
    let Some(name) = rest.get(..count) else { return Front::More };
    let Some(name) = words::name(name) else { return Front::Bad };
    let Some(size) = rest[count..].first_chunk() else { return Front::More };
    let size = usize::from(u16::from_be_bytes(*size));
    if !(1..=MAX_PAYLOAD).contains(&size) {
        return Front::Bad;
    }
    let size = count + 3 + size;
    if bytes.len() < size { Front::More } else { Front::Record(name, size) }
}

/// Bytes that came and were not taken, from `first` to `end`.
struct Buffer<R> {
    source: R,
    bytes: Box<[u8]>,
    first: usize,
    end: usize,
}

impl<R: Read> Buffer<R> {
    /// Reads more behind what is there; how many bytes came.
    fn fill(&mut self) -> io::Result<usize> {
        self.bytes.copy_within(self.first..self.end, 0);
        self.end -= self.first;
        self.first = 0;
        loop {
            match self.source.read(&mut self.bytes[self.end..]) {
                Err(fault) if fault.kind() == ErrorKind::Interrupted => (),
                Err(fault) => return Err(fault),
                Ok(count) => {
                    self.end += count;
                    return Ok(count);
                }
            }
        }
    }
}

/// Queues the records of a connection until it ends, and rings the link for each; why it ended, and how many it queued.
pub fn work(worker: usize, source: impl Read, queue: &SyncSender<Offer>, wake: impl Fn()) -> (Why, u64) {
    let mut buffer = Buffer { source, bytes: vec![0; ROOM].into(), first: 0, end: 0 };
    let mut tally = 0;
    loop {
        let bytes = &buffer.bytes[buffer.first..buffer.end];
        match front(bytes) {
            Front::Record(name, size) => {
                let record = bytes[..size].into();
                buffer.first += size;
                if queue.send(Offer { worker, name, record }).is_err() {
                    return (Why::Stopped, tally);
                }
                tally += 1;
                wake();
            }
            Front::Bad => return (Why::BadRecord, tally),
            Front::More => match buffer.fill() {
                Ok(0) if buffer.end > 0 => return (Why::Cut, tally),
                Ok(0) => return (Why::End, tally),
                Ok(_) => (),
                Err(_) => return (Why::Fault, tally),
            },
        }
    }
}
