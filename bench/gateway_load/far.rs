//! A far end: accepts one connection after another, and counts what comes of each flow.
//!
//! It prints its address. Then it prints a line of JSON every twentieth of a second, once the first byte came: the
//! seconds since then, the counts, the longest pause between two reads since the line before in seconds, how many
//! connections came, and how many of them were read to their ends. Lines on standard input: `rest` reads nothing until
//! `go`; `drop` ends the connection; `rate N` reads N bytes a second, and with 0 as fast as they come. It ends with
//! standard input. Bytes that are no frames end it with status 1.

use crate::fault;
use crate::frames::Counts;
use crate::number;
use std::io::{self, BufRead, Read, Write};
use std::net::{Shutdown, TcpListener, TcpStream};
use std::sync::mpsc::{Receiver, channel};
use std::thread;
use std::time::{Duration, Instant};

const INTERVAL: Duration = Duration::from_millis(50);
const PATIENCE: Duration = Duration::from_millis(10);
const MOST: usize = 1 << 18;

/// A far end with a rate reads what came free in a pause, and at most what came free in that many seconds.
const PAUSE: f64 = 0.004;
const SAVED: f64 = 0.05;

struct Far {
    counts: Counts,
    lines: Receiver<String>,
    start: Option<Instant>,
    printed: Instant,
    read: Instant,
    pause: Duration,
    connections: u64,
    over: u64,
    rate: f64,
    left: f64,
    is_resting: bool,
    buffer: Vec<u8>,
    filled: usize,
}

/// What became of a connection.
enum Met {
    Bytes,
    Nothing,
    End,
}

impl Far {
    /// Obeys the lines that came; whether the connection is to end.
    fn obey(&mut self) -> io::Result<bool> {
        let mut is_over = false;
        while let Ok(line) = self.lines.try_recv() {
            match line.split_whitespace().collect::<Vec<_>>().as_slice() {
                ["rest"] => self.is_resting = true,
                ["go"] => self.is_resting = false,
                ["drop"] => is_over = true,
                ["rate", rate] => self.rate = number(rate)?,
                _ => return Err(fault("the lines are rest, go, drop and rate N")),
            }
        }
        Ok(is_over)
    }

    /// Prints a line if one is due.
    fn print(&mut self) -> io::Result<()> {
        let now = Instant::now();
        let Some(start) = self.start else { return Ok(()) };
        if now - self.printed >= INTERVAL {
            let Far { counts, connections, over, .. } = self;
            let (seconds, pause) = ((now - start).as_secs_f64(), self.pause.as_secs_f64());
            let mut out = io::stdout().lock();
            writeln!(out, "[{seconds:.6},{counts},{pause:.6},{connections},{over}]")?;
            self.printed = now;
            self.pause = Duration::ZERO;
        }
        Ok(())
    }

    /// How many bytes may be read; waits a while if there are none.
    fn allowance(&mut self) -> usize {
        if self.is_resting {
            thread::sleep(PATIENCE);
            return 0;
        }
        if self.rate == 0.0 {
            return MOST;
        }
        thread::sleep(Duration::from_secs_f64(PAUSE / 2.0));
        let now = Instant::now();
        self.left = (self.left + (now - self.read).as_secs_f64() * self.rate).min(self.rate * SAVED);
        self.read = now;
        if self.left >= self.rate * PAUSE { (self.left as usize).min(MOST) } else { 0 }
    }

    fn read(&mut self, stream: &mut TcpStream) -> io::Result<Met> {
        let most = self.allowance();
        if most == 0 {
            return Ok(Met::Nothing);
        }
        let room = &mut self.buffer[self.filled..];
        let most = most.min(room.len());
        let count = match stream.read(&mut room[..most]) {
            Ok(0) => return Ok(Met::End),
            Ok(count) => count,
            Err(fault) if matches!(fault.kind(), io::ErrorKind::WouldBlock | io::ErrorKind::TimedOut) => {
                return Ok(Met::Nothing);
            }
            Err(_) => return Ok(Met::End),
        };
        let now = Instant::now();
        if self.start.is_none() {
            self.start = Some(now);
        } else if self.rate == 0.0 {
            self.pause = self.pause.max(now - self.read);
        }
        if self.rate == 0.0 {
            self.read = now;
        }
        self.left -= count as f64;
        self.filled += count;
        let taken = self.counts.feed(&self.buffer[..self.filled])?;
        self.buffer.copy_within(taken..self.filled, 0);
        self.filled -= taken;
        Ok(Met::Bytes)
    }

    /// Reads a connection to its end. What comes after `drop` is refused by the system, and what came before is read:
    /// so no byte is acknowledged that is not read.
    fn serve(&mut self, mut stream: TcpStream) -> io::Result<()> {
        stream.set_nonblocking(false)?;
        stream.set_read_timeout(Some(PATIENCE))?;
        self.filled = 0;
        self.connections += 1;
        let mut is_dropped = false;
        loop {
            if self.obey()? && !is_dropped {
                stream.shutdown(Shutdown::Both).ok();
                is_dropped = true;
                self.is_resting = false;
            }
            if let Met::End = self.read(&mut stream)? {
                return Ok(());
            }
            self.print()?;
        }
    }
}

/// Lines of standard input. The program ends with them.
fn input() -> Receiver<String> {
    let (sender, lines) = channel();
    thread::spawn(move || {
        for line in io::stdin().lock().lines().map_while(Result::ok) {
            if sender.send(line).is_err() {
                break;
            }
        }
        std::process::exit(0);
    });
    lines
}

pub fn run(words: &[&str]) -> io::Result<()> {
    let (mut listen, mut rate, mut is_numbered) = ("127.0.0.1:0", 0.0, false);
    let mut words = words.iter();
    while let Some(word) = words.next() {
        match (*word, words.as_slice().first()) {
            ("--numbered", _) => is_numbered = true,
            ("--listen", Some(address)) => listen = address,
            ("--rate", Some(bytes)) => rate = number(bytes)?,
            _ => return Err(fault("the words of far are --listen, --rate and --numbered")),
        }
        if *word != "--numbered" {
            words.next();
        }
    }
    let listener = TcpListener::bind(listen)?;
    listener.set_nonblocking(true)?;
    println!("{}", listener.local_addr()?);
    let now = Instant::now();
    let mut far = Far {
        counts: Counts::new(is_numbered),
        lines: input(),
        start: None,
        printed: now,
        read: now,
        pause: Duration::ZERO,
        connections: 0,
        over: 0,
        rate,
        left: 0.0,
        is_resting: false,
        buffer: vec![0; 2 * MOST],
        filled: 0,
    };
    loop {
        match listener.accept() {
            Ok((stream, _)) => {
                far.serve(stream)?;
                far.over += 1;
            }
            Err(fault) if fault.kind() == io::ErrorKind::WouldBlock => thread::sleep(Duration::from_millis(1)),
            Err(fault) => return Err(fault),
        }
        far.obey()?;
        far.print()?;
    }
}
