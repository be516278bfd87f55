//! The load of a gateway's benches: floods of tenants, a far end that counts, and clients that measure. They are fast
//! enough to keep a gateway busy, which loops in Python are not. gateway_loading.py builds and starts it.
//!
//! - `far [--listen ADDRESS] [--rate BYTES] [--numbered]` is a far end (far.rs);
//! - `floods [--random SEED] ADDRESS/NAME/LENGTH[,LENGTH..]/CONNECTIONS ..` are tenants (floods.rs);
//! - `asks ADDRESS COUNT LINE` and `pings NAME LENGTH COUNT` measure replies and lone packets (clients.rs).

mod clients;
mod far;
mod floods;
mod frames;

use std::io;
use std::process::ExitCode;

fn run(words: &[&str]) -> io::Result<()> {
    match words {
        ["far", rest @ ..] => far::run(rest),
        ["floods", rest @ ..] => floods::run(rest),
        ["asks", address, count, line] => clients::ask(address, number(count)?, line),
        ["pings", name, length, count] => clients::ping(name, number(length)?, number(count)?),
        _ => Err(fault("the words are far, floods, asks or pings")),
    }
}

/// A fault of this program, and not of the system.
pub fn fault(text: &str) -> io::Error {
    io::Error::other(text.to_string())
}

/// The number that a word spells.
pub fn number<T: std::str::FromStr>(word: &str) -> io::Result<T> {
    word.parse().map_err(|_| fault(&format!("no number: {word}")))
}

fn main() -> ExitCode {
    let words: Vec<String> = std::env::args().skip(1).collect();
    let words: Vec<&str> = words.iter().map(String::as_str).collect();
    match run(&words) {
        Ok(()) => ExitCode::SUCCESS,
        Err(fault) => {
            eprintln!("gateway_load: {fault}");
            ExitCode::FAILURE
        }
    }
}
