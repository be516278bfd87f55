//! A plain Rust program of the same lines, with no proofs and as fast as careful Rust is without a crate: the
//! yardstick of bench.py. A frame is built where its packet comes, behind the others of its flow, and is copied onto
//! the tape; hexadecimal is read by a table of pairs; answers are written into the one buffer of the output; and no
//! line allocates but where something grows. What flows are worth is kept, and computed anew only where it changes;
//! the flows that compete stand in a heap. It takes the words `run --life L`, which have to be right.
//!
//! With `serve` it is the link on sockets, over the mutex, the bounded channel and the threads of the standard library:
//! the yardstick of serve.py, and what tests/serve.py was tried with. Its words are in arguments.rs. With `beside
//! SIZE ROUNDS` it is the yardstick of locked.py.

mod arguments;
mod beside;
mod buffer;
mod chains;
mod connections;
mod control;
mod frame;
mod heap;
mod journal;
mod ledger;
mod link;
mod locked;
mod names;
mod output;
mod queue;
mod records;
mod refusal;
mod report;
mod serve;
mod words;
mod worths;

use frame::Version;
use link::{Link, MAX_LINE};
use output::Output;
use std::fs::File;
use std::io::{self, Read, Write};
use std::os::fd::AsFd;
use std::process::ExitCode;

const INPUT: usize = 1 << 17;

/// Answers each line that ends in these bytes; the number of bytes up to the end of the last of them.
fn answer_lines(link: &mut Link, bytes: &[u8]) -> io::Result<usize> {
    let mut at = 0;
    while let Some(count) = words::line_feed(&bytes[at..]) {
        link.answer(&bytes[at..at + count])?;
        at += count + 1;
    }
    Ok(at)
}

/// Runs the script of a file. The buffer is small enough to stay in the processor's cache, which costs less than the
/// whole script at once; where a line goes past its end, the line's beginning is moved to its front.
fn run(link: &mut Link, script: &mut File) -> io::Result<()> {
    let mut buffer = vec![0; INPUT];
    let mut filled = 0;
    loop {
        let count = script.read(&mut buffer[filled..])?;
        if count == 0 {
            break;
        }
        filled += count;
        let answered = answer_lines(link, &buffer[..filled])?;
        buffer.copy_within(answered..filled, 0);
        // The beginning of a line that is too long is enough.
        filled = (filled - answered).min(MAX_LINE + 1);
    }
    if filled > 0 {
        link.answer(&buffer[..filled])?;
    }
    link.finish()
}

fn main() -> io::Result<ExitCode> {
    let words: Vec<String> = std::env::args().skip(1).collect();
    if words.first().is_some_and(|word| word == "serve") {
        let Some(arguments) = arguments::read(&words[1..]) else {
            let _ = io::stderr().write_all(b"error: these are no words of serve\n");
            return Ok(ExitCode::from(2));
        };
        return Ok(ExitCode::from(serve::serve(&arguments)));
    }
    if let [word, size, rounds] = words.as_slice()
        && word == "beside"
    {
        let (size, rounds) = (size.parse().map_err(io::Error::other)?, rounds.parse().map_err(io::Error::other)?);
        println!("{}", beside::arrivals(size, rounds)?);
        return Ok(ExitCode::SUCCESS);
    }
    let life = std::env::args().nth(3).and_then(|word| word.parse().ok()).unwrap_or(65536);
    let mut script = File::from(io::stdin().as_fd().try_clone_to_owned()?);
    let output = Output::new(File::from(io::stdout().as_fd().try_clone_to_owned()?));
    run(&mut Link::new(Version::One, life, output), &mut script)?;
    Ok(ExitCode::SUCCESS)
}
