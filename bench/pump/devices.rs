//! The devices of the tenants, from which packets are read in turn.

use std::fs::File;
use std::io::{self, Read, Write};
use std::os::fd::RawFd;

use crate::frames::{HEADER, put_header};
use crate::system::{Polled, READS, given, now};

/// A device. Its turn lasts until it has no packet, or `left` is spent.
struct Device {
    file: File,
    is_ready: bool,
    quantum: i64,
    left: i64,
    number: u64,
}

/// The devices, and whose turn it is.
pub struct Devices {
    devices: Vec<Device>,
    turn: usize,
}

impl Devices {
    /// The devices of these descriptors. In each round one gets its quantum of bytes, and a packet at least.
    pub fn new(descriptors: &[RawFd], quanta: &[i64]) -> io::Result<Devices> {
        let mut devices = Vec::new();
        for (&descriptor, &quantum) in descriptors.iter().zip(quanta) {
            devices.push(Device { file: given(descriptor)?, is_ready: false, quantum, left: 0, number: 0 });
        }
        Ok(Devices { devices, turn: 0 })
    }

    /// A device that has packets is not asked whether it has some.
    pub fn polled(&self) -> impl Iterator<Item = Polled> {
        self.devices.iter().map(|device| Polled::new(&device.file, if device.is_ready { 0 } else { READS }))
    }

    /// Notes which devices have packets.
    pub fn note(&mut self, polled: &[Polled]) {
        for (device, polled) in self.devices.iter_mut().zip(polled) {
            device.is_ready |= polled.is_ready();
        }
    }

    /// Reads the next packet into a frame: how many bytes that has. None if no device has a packet.
    pub fn next_frame(&mut self, frame: &mut [u8]) -> io::Result<Option<usize>> {
        // A device that was in the middle of its turn is asked twice if no other one has a packet.
        for _ in 0..=self.devices.len() {
            let found = self.read(frame)?;
            if found.is_some() {
                return Ok(found);
            }
            self.turn = (self.turn + 1) % self.devices.len();
        }
        Ok(None)
    }

    /// Reads a packet of the device whose turn it is. None if it has no packet, or has had its turn.
    fn read(&mut self, frame: &mut [u8]) -> io::Result<Option<usize>> {
        let count = self.devices.len();
        let device = &mut self.devices[self.turn];
        if device.left <= 0 {
            device.left += device.quantum;
        }
        let found = if device.is_ready { now(device.file.read(&mut frame[HEADER..]))? } else { None };
        let Some(length) = found else {
            (device.is_ready, device.left) = (false, 0);
            return Ok(None);
        };
        device.number += 1;
        device.left -= length as i64;
        put_header(frame, self.turn as u32 + 1, device.number, length);
        if device.left <= 0 {
            self.turn = (self.turn + 1) % count;
        }
        Ok(Some(HEADER + length))
    }

    /// Gives a packet to the device of a flow. One that takes none loses it.
    pub fn give(&mut self, flow: usize, packet: &[u8]) {
        if let Some(device) = flow.checked_sub(1).and_then(|index| self.devices.get_mut(index)) {
            let _ = device.file.write(packet);
        }
    }
}
