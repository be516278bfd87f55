//! A link between two TUN devices, as a wire between two hosts: each direction has a rate, a delay, and a queue before
//! it that drops what does not fit. bench/tunnel.py builds it, since not every kernel can delay packets.
//!
//! `link BYTES_A_SECOND MILLISECONDS QUEUE_BYTES DESCRIPTOR DESCRIPTOR`
//!
//! When a packet leaves is computed from the rate. A packet counts as if it came when no packet waited last. So a
//! program that runs late sends late, and loses none of the rate.

#[path = "../pump/system.rs"]
#[allow(dead_code)]
mod system;

use std::collections::VecDeque;
use std::fs::File;
use std::io::{self, Read, Write};
use std::process::ExitCode;
use std::time::{Duration, Instant};

use system::{Polled, READS, given, now, wait};

const LONGEST_PACKET: usize = 65536;

/// How many packets are read before those that are due are given.
const OFTEN: usize = 16;

/// How long packets are waited for at a time. Each counts as come at most that much too early if the program runs in
/// time.
const LOOK: Duration = Duration::from_millis(1);

struct Direction {
    from: File,
    to: File,
    rate: f64,
    delay: Duration,
    queue: f64,
    // When the link has sent what it took, and when no packet waited last.
    free: Instant,
    empty: Instant,
    packets: VecDeque<(Instant, Box<[u8]>)>,
}

impl Direction {
    /// Queues a packet, unless the queue is full.
    fn take(&mut self, packet: &[u8]) {
        let start = self.free.max(self.empty);
        let length = packet.len() as f64;
        if start.saturating_duration_since(Instant::now()).as_secs_f64() * self.rate + length > self.queue {
            return;
        }
        self.free = start + Duration::from_secs_f64(length / self.rate);
        self.packets.push_back((self.free + self.delay, packet.into()));
    }

    /// Gives the packets that are due: how long it takes until the next one is. A device that takes none loses it.
    fn give(&mut self) -> Option<Duration> {
        while let Some((due, packet)) = self.packets.front() {
            let left = due.saturating_duration_since(Instant::now());
            if !left.is_zero() {
                return Some(left);
            }
            let _ = self.to.write(packet);
            self.packets.pop_front();
        }
        None
    }

    fn run(&mut self) -> io::Result<()> {
        let mut packet = vec![0; LONGEST_PACKET];
        loop {
            let pause = self.give().map_or(LOOK, |pause| pause.min(LOOK));
            wait(&mut [Polled::new(&self.from, READS)], Some(pause))?;
            for _ in 0..OFTEN {
                let time = Instant::now();
                let Some(length) = now(self.from.read(&mut packet))? else {
                    self.empty = time;
                    break;
                };
                self.take(&packet[..length]);
            }
        }
    }
}

fn run() -> io::Result<()> {
    let words: Vec<String> = std::env::args().skip(1).collect();
    let numbers: Option<Vec<u32>> = words.iter().map(|word| word.parse().ok()).collect();
    let Some([rate, delay, queue, one, other]) = numbers.as_deref() else {
        return Err(io::Error::other("wrong words"));
    };
    let [one, other] = [given(*one as i32)?, given(*other as i32)?];
    let direction = |from: &File, to: &File| -> io::Result<Direction> {
        Ok(Direction {
            from: from.try_clone()?,
            to: to.try_clone()?,
            rate: f64::from(*rate),
            delay: Duration::from_millis(u64::from(*delay)),
            queue: f64::from(*queue),
            free: Instant::now(),
            empty: Instant::now(),
            packets: VecDeque::new(),
        })
    };
    let mut back = direction(&other, &one)?;
    let thread = std::thread::spawn(move || back.run());
    direction(&one, &other)?.run()?;
    thread.join().unwrap_or(Ok(()))
}

fn main() -> ExitCode {
    let Err(fault) = run() else { return ExitCode::SUCCESS };
    eprintln!("link: {fault}");
    ExitCode::FAILURE
}
