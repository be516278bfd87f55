//! The text of answers.

use std::fs::File;
use std::io::{self, Write};

const ROOM: usize = 1 << 16;

/// The longest answer is a report: totals of 35 bytes, 64 flows of 93 bytes, and the word that ends it.
const MAX_ANSWER: usize = 6400;

/// The longest answer of one line.
const MAX_LINE: usize = 128;

/// The two decimal digits of each number below 100.
static DECIMALS: [[u8; 2]; 100] = {
    let mut table = [[0; 2]; 100];
    let mut number = 0;
    while number < 100 {
        table[number] = [b'0' + (number / 10) as u8, b'0' + (number % 10) as u8];
        number += 1;
    }
    table
};

/// The hexadecimal digit of a value below 16. (A table would be slower: this is computed for many bytes at once.)
fn digit(value: u8) -> u8 {
    value + if value < 10 { b'0' } else { b'a' - 10 }
}

/// Puts a text at a place of an answer; the place behind it.
#[inline(always)]
fn put(answer: &mut [u8; MAX_LINE], at: usize, text: &[u8]) -> usize {
    answer[at..at + text.len()].copy_from_slice(text);
    at + text.len()
}

#[inline(always)]
fn put_number(answer: &mut [u8; MAX_LINE], at: usize, number: u64) -> usize {
    if number < 10 { put(answer, at, &[b'0' + number as u8]) } else { put_long_number(answer, at, number) }
}

/// How many digits a number has.
fn digits_of(number: u64) -> usize {
    match number {
        ..100 => 2 - usize::from(number < 10),
        ..1_000 => 3,
        ..10_000 => 4,
        ..100_000 => 5,
        ..1_000_000 => 6,
        _ => number.ilog10() as usize + 1,
    }
}

fn put_long_number(answer: &mut [u8; MAX_LINE], at: usize, number: u64) -> usize {
    let count = digits_of(number);
    let mut rest = number;
    let (first, pairs) = answer[at..at + count].as_rchunks_mut();
    for pair in pairs.iter_mut().rev() {
        *pair = DECIMALS[(rest % 100) as usize];
        rest /= 100;
    }
    if let [first] = first {
        *first = b'0' + rest as u8;
    }
    at + count
}

/// The output and what is not yet written of it.
pub struct Output {
    file: File,
    buffer: Box<[u8; ROOM]>,
    filled: usize,
}

impl Output {
    pub fn new(file: File) -> Output {
        Output { file, buffer: Box::new([0; ROOM]), filled: 0 }
    }

    /// Makes room for one answer.
    pub fn make_room(&mut self) -> io::Result<()> {
        if self.has_room() { Ok(()) } else { self.flush() }
    }

    /// Whether there is room for one answer.
    pub fn has_room(&self) -> bool {
        self.filled <= ROOM - MAX_ANSWER
    }

    pub fn flush(&mut self) -> io::Result<()> {
        self.file.write_all(&self.buffer[..self.filled])?;
        self.filled = 0;
        Ok(())
    }

    pub fn text(&mut self, text: &[u8]) {
        self.buffer[self.filled..self.filled + text.len()].copy_from_slice(text);
        self.filled += text.len();
    }

    /// Answers by a word and some numbers.
    #[inline(always)]
    pub fn line(&mut self, word: &[u8], numbers: &[u64], last: &[u8]) {
        let Some(answer) = self.buffer[self.filled..].first_chunk_mut() else { return };
        let mut at = put(answer, 0, word);
        for number in numbers {
            at = put(answer, at, b" ");
            at = put_number(answer, at, *number);
        }
        self.filled += put(answer, at, last);
    }

    /// The line of all bytes that were written.
    pub fn finish(&mut self, tape: &[u8]) -> io::Result<()> {
        self.make_room()?;
        self.text(b"out ");
        self.flush()?;
        let mut digits = vec![0; ROOM];
        for bytes in tape.chunks(ROOM / 2) {
            let spelled = &mut digits[..2 * bytes.len()];
            for (pair, byte) in spelled.as_chunks_mut().0.iter_mut().zip(bytes) {
                *pair = [digit(byte >> 4), digit(byte & 15)];
            }
            self.file.write_all(spelled)?;
        }
        self.text(if tape.is_empty() { b"-\n" } else { b"\n" });
        self.flush()
    }
}
