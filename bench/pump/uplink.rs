//! The near end of the link: frames that were read and not yet sent, and the socket that takes them.

use std::io::{self, Write};
use std::net::{TcpStream, UdpSocket};
use std::time::{Duration, Instant};

use crate::devices::Devices;
use crate::frames::{HEADER, LONGEST_PACKET, header};
use crate::system::{Polled, WRITES, now, set_send_buffer};

const OUTBOX: usize = 65536;
const LONGEST_FRAME: usize = HEADER + LONGEST_PACKET;

/// How much of a rate is saved up, and how often a dial is tried before the far end listens.
const SAVED: f64 = 0.02;
const DIALS: usize = 200;
const PAUSE: Duration = Duration::from_millis(50);

/// Bytes that may be read. Without a rate that is any number.
struct Allowance {
    rate: Option<f64>,
    bytes: f64,
    at: Instant,
}

enum Socket {
    Stream(TcpStream),
    Datagrams(UdpSocket),
}

/// The bytes of frames from `start` to `end` wait for the socket.
pub struct Uplink {
    socket: Socket,
    allowance: Allowance,
    frames: Box<[u8]>,
    start: usize,
    end: usize,
}

impl Allowance {
    fn refill(&mut self) {
        let Some(rate) = self.rate else { return };
        let time = Instant::now();
        self.bytes = (self.bytes + rate * (time - self.at).as_secs_f64()).min(rate * SAVED);
        self.at = time;
    }

    fn is_left(&self) -> bool {
        self.rate.is_none() || self.bytes > 0.0
    }

    /// How long it takes until some is left, if none is.
    fn pause(&self) -> Option<Duration> {
        let rate = self.rate.filter(|_| !self.is_left())?;
        Some(Duration::from_secs_f64((1.0 - self.bytes) / rate))
    }
}

/// Dials until the far end listens.
fn dialled(address: &str) -> io::Result<TcpStream> {
    for _ in 0..DIALS {
        match TcpStream::connect(address) {
            Err(fault) if fault.kind() == io::ErrorKind::ConnectionRefused => std::thread::sleep(PAUSE),
            dialled => return dialled,
        }
    }
    Err(io::Error::other("nobody listens"))
}

impl Uplink {
    /// An uplink over TCP.
    pub fn stream(address: &str, rate: Option<f64>, buffer: Option<i32>) -> io::Result<Uplink> {
        let stream = dialled(address)?;
        stream.set_nodelay(true)?;
        stream.set_nonblocking(true)?;
        if let Some(bytes) = buffer {
            set_send_buffer(&stream, bytes)?;
        }
        Ok(Uplink::over(Socket::Stream(stream), rate))
    }

    /// An uplink over UDP.
    pub fn datagrams(address: &str, rate: Option<f64>, buffer: Option<i32>) -> io::Result<Uplink> {
        let socket = UdpSocket::bind("0.0.0.0:0")?;
        socket.connect(address)?;
        socket.set_nonblocking(true)?;
        if let Some(bytes) = buffer {
            set_send_buffer(&socket, bytes)?;
        }
        Ok(Uplink::over(Socket::Datagrams(socket), rate))
    }

    fn over(socket: Socket, rate: Option<f64>) -> Uplink {
        let allowance = Allowance { rate, bytes: 0.0, at: Instant::now() };
        Uplink { socket, allowance, frames: vec![0; OUTBOX + LONGEST_FRAME].into(), start: 0, end: 0 }
    }

    /// Whether a packet may be read.
    pub fn has_room(&self) -> bool {
        self.end - self.start + LONGEST_FRAME <= OUTBOX && self.allowance.is_left()
    }

    /// How long it takes until packets may be read, if that is a question of time.
    pub fn pause(&self) -> Option<Duration> {
        self.allowance.pause()
    }

    pub fn polled(&self) -> Polled {
        let wanted = if self.start < self.end { WRITES } else { 0 };
        match &self.socket {
            Socket::Stream(stream) => Polled::new(stream, wanted),
            Socket::Datagrams(socket) => Polled::new(socket, wanted),
        }
    }

    /// Reads packets of the devices as far as there is room and a rate allows it.
    pub fn fill(&mut self, devices: &mut Devices) -> io::Result<()> {
        self.allowance.refill();
        while self.has_room() {
            if self.end > OUTBOX {
                self.frames.copy_within(self.start..self.end, 0);
                self.end -= self.start;
                self.start = 0;
            }
            let Some(length) = devices.next_frame(&mut self.frames[self.end..self.end + LONGEST_FRAME])? else {
                break;
            };
            self.end += length;
            self.allowance.bytes -= length as f64;
        }
        Ok(())
    }

    /// Gives the socket what it takes.
    pub fn send(&mut self) -> io::Result<()> {
        while self.start < self.end {
            let Some(count) = self.offer()? else { break };
            self.start += count;
        }
        if self.start == self.end {
            (self.start, self.end) = (0, 0);
        }
        Ok(())
    }

    /// Offers all bytes, or a frame as a datagram.
    fn offer(&mut self) -> io::Result<Option<usize>> {
        let waiting = &self.frames[self.start..self.end];
        match &mut self.socket {
            Socket::Stream(stream) => now(stream.write(waiting)),
            Socket::Datagrams(socket) => {
                let frame = header(waiting).map_or(waiting.len(), |(_, length)| HEADER + length);
                match now(socket.send(&waiting[..frame])) {
                    // A refusal is of a datagram before.
                    Err(fault) if fault.kind() == io::ErrorKind::ConnectionRefused => Ok(Some(frame)),
                    sent => sent,
                }
            }
        }
    }
}
