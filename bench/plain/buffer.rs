//! The packets of a flow that wait, as the frames that they will be sent as.

use crate::frame::{Header, MAX_HEADER, Version};
use std::ops::Range;

/// How many bytes of frames that are out may stand before the first frame.
const MAX_STALE: usize = 1 << 12;

/// Stands for two characters that spell no byte, above every byte.
const NO_BYTE: u16 = 0x100;

/// The byte that each two characters spell, the first of them in the lower half of the place.
static BYTES: [u16; 1 << 16] = {
    let mut table = [NO_BYTE; 1 << 16];
    let digits = b"0123456789abcdef";
    let mut byte = 0;
    while byte < 256 {
        table[digits[byte & 15] as usize * 256 + digits[byte >> 4] as usize] = byte as u16;
        byte += 1;
    }
    table
};

fn spelled(pair: &[u8; 2]) -> u16 {
    BYTES[usize::from(u16::from_le_bytes(*pair))]
}

/// Whether an even number of characters spell bytes.
pub fn is_hexadecimal(payload: &[u8]) -> bool {
    payload.as_chunks().0.iter().fold(0, |seen, pair| seen | spelled(pair)) < NO_BYTE
}

/// Frames one after the other, from `first` to `end`. Each has its size.
pub struct Buffer {
    version: Version,
    limit: usize,
    count: usize,
    frames: Vec<u8>,
    first: usize,
    end: usize,
}

impl Buffer {
    /// An empty buffer. It has room for two frames at least, so one more has room once the room is doubled.
    pub fn new(version: Version, limit: usize) -> Buffer {
        let room = 2 * MAX_STALE.max(version.max_frame());
        Buffer { version, limit, count: 0, frames: vec![0; room], first: 0, end: 0 }
    }

    pub fn len(&self) -> usize {
        self.count
    }

    pub fn is_full(&self) -> bool {
        self.count == self.limit
    }

    /// Puts a header behind the frames; the place of its payload.
    #[inline(always)]
    fn begin(&mut self, header: Header, size: usize) -> Range<usize> {
        if self.frames.len() - self.end < MAX_HEADER + size {
            self.frames.resize(2 * self.frames.len(), 0);
        }
        self.version.write_header(&mut self.frames[self.end..], header, size);
        let start = self.end + self.version.header_size();
        start..start + size
    }

    /// Puts a frame with this payload behind the others.
    pub fn push_bytes(&mut self, header: Header, payload: &[u8]) {
        let place = self.begin(header, payload.len());
        self.end = place.end;
        self.count += 1;
        self.frames[place].copy_from_slice(payload);
    }

    /// Puts a frame with this payload behind the others, where an even number of digits spell it; else nothing changes.
    pub fn push(&mut self, header: Header, payload: &[u8]) -> bool {
        let place = self.begin(header, payload.len() / 2);
        let end = place.end;
        let mut seen = 0;
        for (byte, pair) in self.frames[place].iter_mut().zip(payload.as_chunks().0) {
            let spelled = spelled(pair);
            seen |= spelled;
            *byte = spelled as u8;
        }
        if seen >= NO_BYTE {
            return false;
        }
        self.end = end;
        self.count += 1;
        true
    }

    /// The first frame.
    pub fn head(&self) -> &[u8] {
        self.version.first_frame(&self.frames[self.first..self.end])
    }

    /// Takes the first frame out, which has that many bytes.
    pub fn pop(&mut self, size: usize) {
        self.first += size;
        self.count -= 1;
        if self.count == 0 {
            self.end = 0;
            self.first = 0;
        } else if self.first > MAX_STALE && self.first > self.end / 2 {
            self.frames.copy_within(self.first..self.end, 0);
            self.end -= self.first;
            self.first = 0;
        }
    }
}
