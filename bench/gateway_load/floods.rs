//! Tenants that send records as fast as they are taken, each connection in a thread of its own.
//!
//! It connects, and prints a line. Lines on standard input: `go [NAME..]` and `stop [NAME..]` let tenants send and
//! pause, all of them if no name is given; `finish` ends all connections after their last whole record, waits until the
//! gateway has taken all, and prints the packets and the bytes of payloads of each tenant as JSON. It ends with standard
//! input. Each payload of eight bytes or more has in front the number of its connection and of its packet there. The
//! lengths of a tenant take turns. With `--random` they are drawn; and so are pauses, and ends of connections, after
//! which others begin.

use crate::fault;
use crate::frames::{COUNT_BITS, LONGEST, NUMBER, push_record};
use crate::number;
use std::io::{self, BufRead, Read, Write};
use std::net::{Shutdown, TcpStream};
use std::sync::atomic::{AtomicU64, Ordering};
use std::sync::{Arc, Condvar, Mutex};
use std::thread::{self, JoinHandle};
use std::time::Duration;

/// About how many bytes go out in one call.
const CHUNK: usize = 1 << 16;

/// The lengths of drawn packets: one in that many is up to the longest, one in that many up to the usual ones, and the
/// others are short.
const LONG_ONE_IN: u64 = 16;
const USUAL_ONE_IN: u64 = 3;
const MOST_USUAL: u64 = 1490;
const MOST_SHORT: u64 = 128;

/// After one chunk in that many there is a pause, of that many milliseconds at most, or the connection ends.
const PAUSE_ONE_IN: u64 = 8;
const MOST_PAUSE: u64 = 40;
const END_ONE_IN: u64 = 64;

#[derive(Clone, Copy, PartialEq)]
enum Order {
    Stop,
    Go,
    Finish,
}

struct Tenant {
    address: String,
    name: String,
    lengths: Vec<usize>,
    order: Mutex<Order>,
    changed: Condvar,
    packets: AtomicU64,
    bytes: AtomicU64,
    connections: AtomicU64,
}

impl Tenant {
    fn read(word: &str) -> io::Result<(Tenant, usize)> {
        let [address, name, lengths, connections] = word.split('/').collect::<Vec<_>>()[..] else {
            return Err(fault("a tenant is ADDRESS/NAME/LENGTHS/CONNECTIONS"));
        };
        let lengths = lengths.split(',').map(number).collect::<io::Result<Vec<usize>>>()?;
        let tenant = Tenant {
            address: address.to_string(),
            name: name.to_string(),
            lengths,
            order: Mutex::new(Order::Stop),
            changed: Condvar::new(),
            packets: AtomicU64::new(0),
            bytes: AtomicU64::new(0),
            connections: AtomicU64::new(0),
        };
        Ok((tenant, number(connections)?))
    }

    fn say(&self, order: Order) {
        if let Ok(mut current) = self.order.lock() {
            *current = order;
        }
        self.changed.notify_all();
    }

    /// Waits while the tenant is to pause; the order then.
    fn order(&self) -> Order {
        let Ok(order) = self.order.lock() else { return Order::Finish };
        self.changed.wait_while(order, |order| *order == Order::Stop).map_or(Order::Finish, |order| *order)
    }

    fn connect(&self) -> io::Result<TcpStream> {
        let stream = TcpStream::connect(&self.address)?;
        stream.set_nodelay(true)?;
        Ok(stream)
    }
}

/// Numbers that look random (xorshift).
struct Draw(u64);

impl Draw {
    fn below(&mut self, bound: u64) -> u64 {
        self.0 ^= self.0 << 13;
        self.0 ^= self.0 >> 7;
        self.0 ^= self.0 << 17;
        self.0.wrapping_mul(0x2545_f491_4f6c_dd1d) % bound
    }

    fn length(&mut self) -> usize {
        let least = NUMBER as u64;
        let most = match self.below(LONG_ONE_IN) {
            0 => LONGEST as u64,
            _ if self.below(USUAL_ONE_IN) == 0 => MOST_USUAL,
            _ => MOST_SHORT,
        };
        (least + self.below(most - least + 1)) as usize
    }
}

/// What one connection sends, and another one after its end.
struct Sender {
    tenant: Arc<Tenant>,
    draw: Option<Draw>,
    connection: u64,
    count: u64,
    chunk: Vec<u8>,
}

impl Sender {
    /// Makes the next records; how many they are, and how many bytes their payloads have.
    fn fill(&mut self) -> (u64, u64) {
        self.chunk.clear();
        let (first, mut bytes) = (self.count, 0);
        while self.chunk.len() + LONGEST < CHUNK {
            let length = match &mut self.draw {
                Some(draw) => draw.length(),
                None => self.tenant.lengths[self.count as usize % self.tenant.lengths.len()],
            };
            let number = self.connection << COUNT_BITS | self.count;
            push_record(&mut self.chunk, self.tenant.name.as_bytes(), length, number);
            self.count += 1;
            bytes += length as u64;
        }
        (self.count - first, bytes)
    }

    /// Sends until the tenant is to finish, or the connection is over by chance; whether another one is to begin.
    fn send(&mut self, stream: &mut TcpStream) -> io::Result<bool> {
        while self.tenant.order() == Order::Go {
            let (packets, bytes) = self.fill();
            stream.write_all(&self.chunk)?;
            self.tenant.packets.fetch_add(packets, Ordering::Relaxed);
            self.tenant.bytes.fetch_add(bytes, Ordering::Relaxed);
            if let Some(draw) = &mut self.draw {
                if draw.below(PAUSE_ONE_IN) == 0 {
                    thread::sleep(Duration::from_millis(draw.below(MOST_PAUSE)));
                }
                if draw.below(END_ONE_IN) == 0 {
                    return Ok(true);
                }
            }
        }
        Ok(false)
    }

    /// Sends on one connection after another. Each ends when the gateway has taken all of it.
    fn run(mut self, mut stream: TcpStream) -> io::Result<()> {
        loop {
            let goes_on = self.send(&mut stream)?;
            stream.shutdown(Shutdown::Write)?;
            while stream.read(&mut [0; 64])? > 0 {}
            if !goes_on {
                return Ok(());
            }
            self.connection = self.tenant.connections.fetch_add(1, Ordering::Relaxed);
            self.count = 0;
            stream = self.tenant.connect()?;
        }
    }
}

/// Lets the tenants of these names go on or pause.
fn say(tenants: &[Arc<Tenant>], names: &[&str], order: Order) {
    for tenant in tenants.iter().filter(|tenant| names.is_empty() || names.contains(&tenant.name.as_str())) {
        tenant.say(order);
    }
}

/// Prints what each tenant sent.
fn print_sent(tenants: &[Arc<Tenant>]) {
    let sent = |tenant: &Arc<Tenant>| {
        let (packets, bytes) = (tenant.packets.load(Ordering::Relaxed), tenant.bytes.load(Ordering::Relaxed));
        format!("\"{}\":[{packets},{bytes}]", tenant.name)
    };
    println!("{{{}}}", tenants.iter().map(sent).collect::<Vec<_>>().join(","));
}

fn finish(tenants: &[Arc<Tenant>], threads: &mut Vec<JoinHandle<io::Result<()>>>) -> io::Result<()> {
    say(tenants, &[], Order::Finish);
    for thread in threads.drain(..) {
        thread.join().map_err(|_| fault("a tenant's thread fails"))??;
    }
    print_sent(tenants);
    Ok(())
}

pub fn run(words: &[&str]) -> io::Result<()> {
    let (seed, words) = match words {
        ["--random", seed, rest @ ..] => (Some(number::<u64>(seed)?), rest),
        _ => (None, words),
    };
    let (mut tenants, mut threads) = (Vec::new(), Vec::new());
    for word in words {
        let (tenant, connections) = Tenant::read(word)?;
        let tenant = Arc::new(tenant);
        tenants.push(tenant.clone());
        for _ in 0..connections {
            let connection = tenant.connections.fetch_add(1, Ordering::Relaxed);
            let draw = seed.map(|seed| Draw(seed.wrapping_add(1 + threads.len() as u64).wrapping_mul(0x9e37_79b9) | 1));
            let sender = Sender { tenant: tenant.clone(), draw, connection, count: 0, chunk: Vec::with_capacity(CHUNK) };
            let stream = tenant.connect()?;
            threads.push(thread::spawn(move || sender.run(stream)));
        }
    }
    println!("connected");
    for line in io::stdin().lock().lines() {
        match line?.split_whitespace().collect::<Vec<_>>().as_slice() {
            ["go", names @ ..] => say(&tenants, names, Order::Go),
            ["stop", names @ ..] => say(&tenants, names, Order::Stop),
            ["finish"] => finish(&tenants, &mut threads)?,
            _ => return Err(fault("the lines are go, stop and finish")),
        }
    }
    Ok(())
}
