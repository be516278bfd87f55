//! Clients that measure: how long a reply takes, and how long a packet takes through an idle gateway. They print the
//! median, what 99 of 100 keep below, and the longest, in microseconds, as JSON.

use crate::fault;
use crate::frames::{HEADER, push_record};
use std::io::{self, BufRead, BufReader, Read, Write};
use std::net::{TcpListener, TcpStream};
use std::thread;
use std::time::{Duration, Instant};

/// A pause between two questions or packets, so that each finds a gateway at rest.
const PAUSE: Duration = Duration::from_millis(1);
const PATIENCE: Duration = Duration::from_secs(20);

fn print_times(mut times: Vec<Duration>) -> io::Result<()> {
    times.sort_unstable();
    let at = |part: usize| times.get((times.len() * part / 100).min(times.len().saturating_sub(1)));
    let (Some(median), Some(late), Some(last)) = (at(50), at(99), times.last()) else {
        return Err(fault("nothing was measured"));
    };
    let [median, late, last] = [median, late, last].map(|time| time.as_secs_f64() * 1e6);
    println!("[{median:.1},{late:.1},{last:.1}]");
    Ok(())
}

/// Asks one line again and again, after a line on standard input. Its reply is one line.
pub fn ask(address: &str, count: usize, line: &str) -> io::Result<()> {
    let mut stream = TcpStream::connect(address)?;
    println!("connected");
    io::stdin().read_line(&mut String::new())?;
    stream.set_nodelay(true)?;
    stream.set_read_timeout(Some(PATIENCE))?;
    let mut replies = BufReader::new(stream.try_clone()?);
    let (line, mut reply, mut times) = (format!("{line}\n"), String::new(), Vec::with_capacity(count));
    for _ in 0..count {
        thread::sleep(PAUSE);
        let start = Instant::now();
        stream.write_all(line.as_bytes())?;
        reply.clear();
        if replies.read_line(&mut reply)? == 0 {
            return Err(fault("the control connection ends"));
        }
        times.push(start.elapsed());
    }
    print_times(times)
}

/// Sends one packet after another, each when the frame of the one before came. It prints the address of the far end that
/// it is, and reads the tenant's address.
pub fn ping(name: &str, length: usize, count: usize) -> io::Result<()> {
    let listener = TcpListener::bind("127.0.0.1:0")?;
    println!("{}", listener.local_addr()?);
    let mut address = String::new();
    io::stdin().read_line(&mut address)?;
    let mut uplink = listener.accept()?.0;
    uplink.set_read_timeout(Some(PATIENCE))?;
    let mut tenant = TcpStream::connect(address.trim())?;
    tenant.set_nodelay(true)?;
    let (mut record, mut frame) = (Vec::new(), vec![0; HEADER + length]);
    push_record(&mut record, name.as_bytes(), length, 0);
    let mut times = Vec::with_capacity(count);
    for _ in 0..count {
        thread::sleep(PAUSE);
        let start = Instant::now();
        tenant.write_all(&record)?;
        uplink.read_exact(&mut frame)?;
        times.push(start.elapsed());
    }
    print_times(times)
}
