//! The limit of serve.py: writes that many frames of that many bytes to an address, one write call each.

use std::io::{self, Write};
use std::net::TcpStream;

fn main() -> io::Result<()> {
    let words: Vec<String> = std::env::args().skip(1).collect();
    let [address, count, size] = words.as_slice() else { return Err(io::Error::other("ADDRESS COUNT SIZE")) };
    let number = |word: &String| word.parse::<usize>().map_err(io::Error::other);
    let frame = vec![0; number(size)?];
    let mut stream = TcpStream::connect(address)?;
    stream.set_nodelay(true)?;
    for _ in 0..number(count)? {
        stream.write_all(&frame)?;
    }
    Ok(())
}
