//! The two versions of frames.

/// The most bytes of a header.
pub const MAX_HEADER: usize = 17;

/// The fields of a header besides the size of the payload. The tariff is that of the flow.
#[derive(Clone, Copy)]
pub struct Header {
    pub tariff: u8,
    pub flow: u32,
    pub seq: u32,
}

/// The frames that a link writes, and the audit that has them.
#[derive(Clone, Copy)]
pub enum Version {
    One,
    Two,
}

impl Version {
    /// The version of the audits that begin with this line.
    pub fn of_audit(line: &[u8]) -> Option<Version> {
        [Version::One, Version::Two].into_iter().find(|version| version.audit_line() == line)
    }

    pub fn audit_line(self) -> &'static [u8] {
        match self {
            Version::One => b"audit 1",
            Version::Two => b"audit 2",
        }
    }

    pub fn header_size(self) -> usize {
        match self {
            Version::One => 12,
            Version::Two => 17,
        }
    }

    pub fn max_payload(self) -> usize {
        match self {
            Version::One => 1490,
            Version::Two => 9000,
        }
    }

    pub fn max_frame(self) -> usize {
        self.header_size() + self.max_payload()
    }

    /// Writes the header of a frame with a payload of that many bytes.
    pub fn write_header(self, frame: &mut [u8], header: Header, size: usize) {
        let Header { tariff, flow, seq } = header;
        let size = (size as u16).to_be_bytes();
        match self {
            Version::One => {
                let frame = &mut frame[..12];
                frame[..2].copy_from_slice(&[0x4c, 1]);
                frame[2..6].copy_from_slice(&flow.to_be_bytes());
                frame[6..10].copy_from_slice(&seq.to_be_bytes());
                frame[10..].copy_from_slice(&size);
            }
            Version::Two => {
                let frame = &mut frame[..17];
                frame[..3].copy_from_slice(&[0x4c, 2, tariff]);
                frame[3..7].copy_from_slice(&flow.to_be_bytes());
                frame[7..15].copy_from_slice(&u64::from(seq).to_be_bytes());
                frame[15..].copy_from_slice(&size);
            }
        }
    }

    /// The first of these frames.
    pub fn first_frame(self, frames: &[u8]) -> &[u8] {
        let size = match self {
            Version::One => 12 + usize::from(u16::from_be_bytes([frames[10], frames[11]])),
            Version::Two => 17 + usize::from(u16::from_be_bytes([frames[15], frames[16]])),
        };
        &frames[..size]
    }
}
