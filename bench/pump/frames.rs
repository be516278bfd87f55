//! Frames: a header of 17 bytes, and a packet.

pub const HEADER: usize = 17;
pub const LONGEST_PACKET: usize = 9000;

const MARK: [u8; 2] = [0x4c, 2];
const TARIFF: u8 = 1;

/// Writes the header of a frame to its front.
pub fn put_header(frame: &mut [u8], flow: u32, number: u64, length: usize) {
    frame[..2].copy_from_slice(&MARK);
    frame[2] = TARIFF;
    frame[3..7].copy_from_slice(&flow.to_be_bytes());
    frame[7..15].copy_from_slice(&number.to_be_bytes());
    frame[15..HEADER].copy_from_slice(&(length as u16).to_be_bytes());
}

/// The flow of the frame at the front of some bytes, and how many bytes its packet has. None if the header is cut.
pub fn header(bytes: &[u8]) -> Option<(usize, usize)> {
    let header = bytes.get(..HEADER)?;
    let flow = u32::from_be_bytes(header[3..7].try_into().ok()?);
    let length = u16::from_be_bytes(header[15..HEADER].try_into().ok()?);
    Some((flow as usize, usize::from(length)))
}

/// Whether some bytes begin as a frame does.
pub fn is_marked(bytes: &[u8]) -> bool {
    bytes.starts_with(&MARK)
}
