//! A plain tunnel between two hosts: packets of devices go out as frames, and frames that come go to devices. It reads
//! and writes as a gateway does, with no books, no accounts and no contracts. bench/tunnel.py and bench/tunnel_speed.py
//! build it.
//!
//! `pump --listen ADDRESS --connect ADDRESS [--udp] [--rate BYTES] [--buffer BYTES] [--quanta BYTES,..] DESCRIPTOR ..`
//!
//! The devices are read in turn, a packet each. With quanta each is read for that many bytes in its turn, and what it
//! read beyond them is taken off its next turn: shares by deficit round robin.

mod devices;
mod downlink;
mod frames;
mod system;
mod uplink;

use std::io;
use std::process::ExitCode;
use std::str::FromStr;
use std::time::Duration;

use devices::Devices;
use downlink::Downlink;
use system::{Polled, wait};
use uplink::Uplink;

#[derive(Default)]
struct Words {
    listen: String,
    connect: String,
    is_datagrams: bool,
    rate: Option<f64>,
    buffer: Option<i32>,
    quanta: Option<Vec<i64>>,
    descriptors: Vec<i32>,
}

fn parsed<T: FromStr>(word: Option<&str>) -> io::Result<T> {
    word.and_then(|word| word.parse().ok()).ok_or_else(|| io::Error::other("wrong words"))
}

fn list<T: FromStr>(word: Option<&str>) -> io::Result<Vec<T>> {
    word.unwrap_or_default().split(',').map(|each| parsed(Some(each))).collect()
}

fn read_words(text: &[String]) -> io::Result<Words> {
    let mut words = Words::default();
    let mut rest = text.iter().map(String::as_str);
    while let Some(word) = rest.next() {
        match word {
            "--listen" => words.listen = parsed(rest.next())?,
            "--connect" => words.connect = parsed(rest.next())?,
            "--udp" => words.is_datagrams = true,
            "--rate" => words.rate = Some(parsed(rest.next())?),
            "--buffer" => words.buffer = Some(parsed(rest.next())?),
            "--quanta" => words.quanta = Some(list(rest.next())?),
            descriptor => words.descriptors.push(parsed(Some(descriptor))?),
        }
    }
    Ok(words)
}

/// The tunnel, which listens before it dials.
struct Pump {
    devices: Devices,
    downlink: Downlink,
    uplink: Uplink,
}

impl Pump {
    fn new(words: &Words) -> io::Result<Pump> {
        let one_packet = vec![1; words.descriptors.len()];
        let quanta = words.quanta.as_ref().unwrap_or(&one_packet);
        let devices = Devices::new(&words.descriptors, quanta)?;
        let downlink = Downlink::listen(&words.listen, words.is_datagrams)?;
        let dial = if words.is_datagrams { Uplink::datagrams } else { Uplink::stream };
        let uplink = dial(&words.connect, words.rate, words.buffer)?;
        Ok(Pump { devices, downlink, uplink })
    }

    /// Waits until there is something to do: whether the downlink has more.
    fn wait(&mut self) -> io::Result<bool> {
        let mut polled: Vec<Polled> = vec![self.downlink.polled(), self.uplink.polled()];
        polled.extend(self.devices.polled());
        let at_once = self.downlink.is_ready().then_some(Duration::ZERO);
        wait(&mut polled, at_once.or(self.uplink.pause()))?;
        self.devices.note(&polled[2..]);
        Ok(polled[0].is_ready())
    }

    /// Does what is at hand: gives a few packets that came, and sends those of the devices.
    fn round(&mut self) -> io::Result<()> {
        let is_readable = self.wait()?;
        self.downlink.give(&mut self.devices, is_readable)?;
        self.uplink.fill(&mut self.devices)?;
        self.uplink.send()
    }
}

fn run() -> io::Result<()> {
    let text: Vec<String> = std::env::args().skip(1).collect();
    let mut pump = Pump::new(&read_words(&text)?)?;
    loop {
        pump.round()?;
    }
}

fn main() -> ExitCode {
    let Err(fault) = run() else { return ExitCode::SUCCESS };
    eprintln!("pump: {fault}");
    ExitCode::FAILURE
}
