//! What is said on a control connection.

use crate::link::MAX_LINE;
use crate::locked::{Port, hold};
use crate::output::Output;
use crate::words;
use std::io::{self, ErrorKind, Read, Write};

const ROOM: usize = 1 << 16;

/// How a control connection ended.
#[derive(Clone, Copy, Debug)]
pub enum How {
    End,
    ReadFault,
    WriteFault,
}

struct Clerk<'a, U, W> {
    port: &'a Port<U>,
    output: Output,
    wake: W,
    receipts: u64,
}

impl<U: Write, W: Fn()> Clerk<'_, U, W> {
    /// Answers all lines that are whole; how many bytes they have. The link hears of each command before a
    /// reply is written, since that may wait.
    fn answer(&mut self, bytes: &[u8]) -> io::Result<usize> {
        let mut at = 0;
        while let Some(count) = words::line_feed(&bytes[at..]) {
            if !self.output.has_room() {
                (self.wake)();
                self.output.flush()?;
            }
            let is_event = hold(self.port).command(&bytes[at..at + count], &mut self.output);
            self.receipts += u64::from(is_event);
            at += count + 1;
        }
        (self.wake)();
        self.output.flush()?;
        Ok(at)
    }
}

/// Answers the lines of a connection until it ends; how it ended, and how many commands were events.
pub fn attend<U: Write>(mut source: impl Read, output: Output, port: &Port<U>, wake: impl Fn()) -> (How, u64) {
    let mut clerk = Clerk { port, output, wake, receipts: 0 };
    let mut buffer = vec![0; ROOM];
    let mut filled = 0;
    loop {
        let count = match source.read(&mut buffer[filled..]) {
            Ok(0) => return (How::End, clerk.receipts),
            Ok(count) => count,
            Err(fault) if fault.kind() == ErrorKind::Interrupted => continue,
            Err(_) => return (How::ReadFault, clerk.receipts),
        };
        filled += count;
        let Ok(answered) = clerk.answer(&buffer[..filled]) else { return (How::WriteFault, clerk.receipts) };
        buffer.copy_within(answered..filled, 0);
        // The beginning of a line that is too long is enough.
        filled = (filled - answered).min(MAX_LINE + 1);
    }
}
