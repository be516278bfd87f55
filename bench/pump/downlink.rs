//! The far end of the link: frames that come, and whose packets go to the devices.

use std::io::{self, Read};
use std::net::{TcpListener, TcpStream, UdpSocket};

use crate::devices::Devices;
use crate::frames::{HEADER, LONGEST_PACKET, header, is_marked};
use crate::system::{Polled, READS, now};

const PIECE: usize = 65536;

/// How many packets are given to devices at most before these are read.
const OFTEN: usize = 8;

enum Socket {
    Listener(TcpListener),
    Stream(TcpStream),
    Datagrams(UdpSocket),
}

/// The bytes from `start` to `end` have come, and no packet of theirs was given to a device.
pub struct Downlink {
    socket: Socket,
    bytes: Box<[u8]>,
    start: usize,
    end: usize,
}

impl Downlink {
    pub fn listen(address: &str, is_datagrams: bool) -> io::Result<Downlink> {
        let socket = if is_datagrams {
            let socket = UdpSocket::bind(address)?;
            socket.set_nonblocking(true)?;
            Socket::Datagrams(socket)
        } else {
            let listener = TcpListener::bind(address)?;
            listener.set_nonblocking(true)?;
            Socket::Listener(listener)
        };
        Ok(Downlink { socket, bytes: vec![0; PIECE + HEADER + LONGEST_PACKET].into(), start: 0, end: 0 })
    }

    pub fn polled(&self) -> Polled {
        match &self.socket {
            Socket::Listener(listener) => Polled::new(listener, READS),
            Socket::Stream(stream) => Polled::new(stream, READS),
            Socket::Datagrams(socket) => Polled::new(socket, READS),
        }
    }

    /// Whether a frame is at hand, or a fault.
    pub fn is_ready(&self) -> bool {
        !matches!(self.frame(), Ok(None))
    }

    /// The flow of the next frame and its length, if it is whole.
    fn frame(&self) -> io::Result<Option<(usize, usize)>> {
        let bytes = &self.bytes[self.start..self.end];
        let Some((flow, length)) = header(bytes) else { return Ok(None) };
        if !is_marked(bytes) {
            return Err(io::Error::other("no frame"));
        }
        Ok((HEADER + length <= bytes.len()).then_some((flow, HEADER + length)))
    }

    /// Reads what has come behind the beginning of a frame. One connection is accepted.
    fn receive(&mut self) -> io::Result<()> {
        self.bytes.copy_within(self.start..self.end, 0);
        (self.start, self.end) = (0, self.end - self.start);
        let room = &mut self.bytes[self.end..];
        match &mut self.socket {
            Socket::Listener(listener) => {
                let (stream, _) = listener.accept()?;
                stream.set_nonblocking(true)?;
                self.socket = Socket::Stream(stream);
            }
            Socket::Stream(stream) => match now(stream.read(room))? {
                Some(0) => return Err(io::Error::other("the far end has ended")),
                count => self.end += count.unwrap_or(0),
            },
            // A datagram that is no whole frame is given up.
            Socket::Datagrams(socket) => self.end = now(socket.recv(&mut self.bytes))?.unwrap_or(0),
        }
        Ok(())
    }

    /// Gives a few packets to the devices, and reads more of them if the socket is ready.
    pub fn give(&mut self, devices: &mut Devices, is_readable: bool) -> io::Result<()> {
        for _ in 0..OFTEN {
            if is_readable && self.frame()?.is_none() {
                self.receive()?;
            }
            let Some((flow, length)) = self.frame()? else { break };
            devices.give(flow, &self.bytes[self.start + HEADER..self.start + length]);
            self.start += length;
        }
        Ok(())
    }
}
