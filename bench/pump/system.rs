//! The few calls of the system that the standard library does not have.

use std::ffi::{c_int, c_short, c_ulong, c_void};
use std::fs::File;
use std::io;
use std::os::fd::{AsRawFd, FromRawFd, RawFd};
use std::time::Duration;

pub const READS: c_short = 0x1;
pub const WRITES: c_short = 0x4;

const F_GETFL: c_int = 3;
const F_SETFL: c_int = 4;
const O_NONBLOCK: c_int = 0x800;
const SOL_SOCKET: c_int = 1;
const SO_SNDBUF: c_int = 7;

/// A descriptor, what is wanted of it, and what it is ready for.
#[repr(C)]
pub struct Polled {
    descriptor: RawFd,
    wanted: c_short,
    found: c_short,
}

#[repr(C)]
struct Timespec {
    seconds: i64,
    nanoseconds: i64,
}

unsafe extern "C" {
    fn ppoll(polled: *mut Polled, count: c_ulong, timeout: *const Timespec, signals: *const c_void) -> c_int;
    fn fcntl(descriptor: c_int, command: c_int, ...) -> c_int;
    fn setsockopt(socket: c_int, level: c_int, name: c_int, value: *const c_void, length: u32) -> c_int;
}

impl Polled {
    /// A descriptor of which nothing is wanted is looked at for faults alone.
    pub fn new(descriptor: &impl AsRawFd, wanted: c_short) -> Polled {
        Polled { descriptor: descriptor.as_raw_fd(), wanted, found: 0 }
    }

    pub fn is_ready(&self) -> bool {
        self.found != 0
    }
}

fn checked(result: c_int) -> io::Result<c_int> {
    if result < 0 { Err(io::Error::last_os_error()) } else { Ok(result) }
}

/// Waits until a descriptor is ready, for at most that long if a time is given.
pub fn wait(polled: &mut [Polled], timeout: Option<Duration>) -> io::Result<()> {
    let time = timeout.map(|time| Timespec {
        seconds: time.as_secs() as i64,
        nanoseconds: i64::from(time.subsec_nanos()),
    });
    let time = time.as_ref().map_or(std::ptr::null(), |time| time as *const Timespec);
    // SAFETY: the slice and the time outlive the call.
    match checked(unsafe { ppoll(polled.as_mut_ptr(), polled.len() as c_ulong, time, std::ptr::null()) }) {
        Err(fault) if fault.kind() != io::ErrorKind::Interrupted => Err(fault),
        _ => Ok(()),
    }
}

/// A descriptor that the process was given, whose calls do not wait.
pub fn given(number: RawFd) -> io::Result<File> {
    // SAFETY: fcntl checks its descriptor, which nothing else of this process owns.
    unsafe {
        let flags = checked(fcntl(number, F_GETFL))?;
        checked(fcntl(number, F_SETFL, flags | O_NONBLOCK))?;
        Ok(File::from_raw_fd(number))
    }
}

/// Sets the size of the send buffer of a socket.
pub fn set_send_buffer(socket: &impl AsRawFd, bytes: c_int) -> io::Result<()> {
    let value = &raw const bytes;
    let length = size_of::<c_int>() as u32;
    // SAFETY: the value has that length.
    checked(unsafe { setsockopt(socket.as_raw_fd(), SOL_SOCKET, SO_SNDBUF, value.cast(), length) })?;
    Ok(())
}

/// The count of a call that does not wait, or nothing if it would have to.
pub fn now(result: io::Result<usize>) -> io::Result<Option<usize>> {
    match result {
        Ok(count) => Ok(Some(count)),
        Err(fault) if fault.kind() == io::ErrorKind::WouldBlock => Ok(None),
        Err(fault) => Err(fault),
    }
}
