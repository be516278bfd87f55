//! Records and frames, and what is counted of them.

use crate::fault;
use std::fmt::{self, Display, Formatter};
use std::io;

pub const HEADER: usize = 17;
pub const LONGEST: usize = 9000;
const MARK: [u8; 2] = [0x4c, 2];
const MOST_FLOWS: usize = 1024;

/// Cell and overhead of the tariffs of a file that has none, from 1.
const TARIFFS: [(u64, u64); 4] = [(1, 0), (48, 16), (1024, 0), (2048, 1024)];

/// How many bytes the number in front of a payload has, and how many bits of it count the packets of a connection. The
/// others are the number of the connection.
pub const NUMBER: usize = 8;
pub const COUNT_BITS: u32 = 40;

/// Appends the record of a packet that has a number in front, if it is long enough.
pub fn push_record(sink: &mut Vec<u8>, name: &[u8], length: usize, number: u64) {
    sink.push(name.len() as u8);
    sink.extend_from_slice(name);
    sink.extend_from_slice(&(length as u16).to_be_bytes());
    let start = sink.len();
    sink.resize(start + length, b'x');
    if length >= NUMBER {
        sink[start..start + NUMBER].copy_from_slice(&number.to_be_bytes());
    }
}

/// What came of a flow. Of packets that are numbered, how many are missing, and how many came twice or too late.
#[derive(Clone, Default)]
struct Flow {
    frames: u64,
    bytes: u64,
    units: u64,
    missing: u64,
    again: u64,
    next: Vec<u64>,
}

impl Flow {
    /// Compares the number of a packet with the one that is next on its connection.
    fn check(&mut self, number: u64) {
        let connection = (number >> COUNT_BITS) as usize;
        let count = number & ((1 << COUNT_BITS) - 1);
        if connection >= self.next.len() {
            self.next.resize(connection + 1, 0);
        }
        let next = &mut self.next[connection];
        if count < *next {
            self.again += 1;
        } else {
            self.missing += count - *next;
            *next = count + 1;
        }
    }
}

/// What came of each flow. It is printed as JSON: for each flow frames, bytes, units, missing and again.
pub struct Counts {
    flows: Vec<Flow>,
    is_numbered: bool,
}

impl Counts {
    pub fn new(is_numbered: bool) -> Counts {
        Counts { flows: vec![Flow::default(); MOST_FLOWS + 1], is_numbered }
    }

    /// Counts the whole frames in front of these bytes, and returns how many bytes they have.
    pub fn feed(&mut self, bytes: &[u8]) -> io::Result<usize> {
        let mut at = 0;
        while let Some((header, rest)) = bytes[at..].split_first_chunk::<HEADER>() {
            let length = usize::from(u16::from_be_bytes([header[15], header[16]]));
            if header[..2] != MARK || length == 0 || length > LONGEST {
                return Err(fault("no frame"));
            }
            let Some(payload) = rest.get(..length) else { break };
            let flow = u32::from_be_bytes([header[3], header[4], header[5], header[6]]) as usize;
            let tariff = TARIFFS.get(usize::from(header[2]).wrapping_sub(1));
            let (Some(flow), Some((cell, overhead))) = (self.flows.get_mut(flow), tariff) else {
                return Err(fault("a frame of another flow or tariff"));
            };
            let whole = HEADER + length;
            flow.frames += 1;
            flow.bytes += whole as u64;
            flow.units += overhead + cell * (whole as u64).div_ceil(*cell);
            if let (true, Some(number)) = (self.is_numbered, payload.first_chunk::<NUMBER>()) {
                flow.check(u64::from_be_bytes(*number));
            }
            at += whole;
        }
        Ok(at)
    }
}

impl Display for Counts {
    fn fmt(&self, f: &mut Formatter<'_>) -> fmt::Result {
        let mut between = "{";
        for (number, flow) in self.flows.iter().enumerate().filter(|(_, flow)| flow.frames > 0) {
            let Flow { frames, bytes, units, missing, again, .. } = flow;
            write!(f, "{between}\"{number}\":[{frames},{bytes},{units},{missing},{again}]")?;
            between = ",";
        }
        f.write_str(if between == "{" { "{}" } else { "}" })
    }
}
