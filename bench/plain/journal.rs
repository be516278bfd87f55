//! The events of a link, and the file that has them.

use crate::frame::Version;
use crate::records;
use std::fs::{self, File, OpenOptions};
use std::io::{self, BufWriter, Write};
use std::path::{Path, PathBuf};

pub enum Entry {
    Command(Box<[u8]>),
    /// The record that came.
    Arrival(Box<[u8]>),
    Write(usize),
    Torn,
}

pub struct Journal {
    version: Version,
    entries: Vec<Entry>,
    pub commands: u64,
    pub arrivals: u64,
}

impl Journal {
    /// A journal with room for a whole life, where there is memory for it.
    pub fn new(version: Version, life: u64) -> Option<Journal> {
        let mut entries = Vec::new();
        entries.try_reserve_exact(life as usize).ok()?;
        Some(Journal { version, entries, commands: 0, arrivals: 0 })
    }

    pub fn push(&mut self, entry: Entry) {
        match entry {
            Entry::Command(_) => self.commands += 1,
            Entry::Arrival(_) => self.arrivals += 1,
            Entry::Write(_) | Entry::Torn => (),
        }
        self.entries.push(entry);
    }

    /// How many events were made.
    pub fn len(&self) -> usize {
        self.entries.len()
    }

    fn write(&self, sink: &mut impl Write) -> io::Result<()> {
        sink.write_all(self.version.audit_line())?;
        sink.write_all(b"\n")?;
        let mut digits = Vec::new();
        for entry in &self.entries {
            match entry {
                Entry::Command(line) => {
                    sink.write_all(line)?;
                    sink.write_all(b"\n")?;
                }
                Entry::Arrival(record) => {
                    sink.write_all(b"send ")?;
                    sink.write_all(records::name(record))?;
                    spell(records::payload(record), &mut digits);
                    sink.write_all(&digits)?;
                }
                Entry::Write(count) => writeln!(sink, "turn {count}")?,
                Entry::Torn => sink.write_all(b"torn\n")?,
            }
        }
        sink.flush()
    }
}

/// A space, the hexadecimal digits of these bytes, and a line feed.
fn spell(bytes: &[u8], text: &mut Vec<u8>) {
    text.clear();
    text.push(b' ');
    for byte in bytes {
        text.extend([byte >> 4, byte & 15].map(|digit| digit + if digit < 10 { b'0' } else { b'a' - 10 }));
    }
    text.push(b'\n');
}

/// Where an audit goes: into a file beside the one that was named, which takes its name at the end, or, where that is
/// no regular file, into it.
pub struct AuditFile {
    file: File,
    name: PathBuf,
    beside: Option<PathBuf>,
}

impl AuditFile {
    pub fn open(name: &str) -> io::Result<AuditFile> {
        let name = PathBuf::from(name);
        if fs::symlink_metadata(&name).is_ok_and(|found| !found.is_file()) {
            let file = OpenOptions::new().write(true).open(&name)?;
            return Ok(AuditFile { file, name, beside: None });
        }
        let beside = beside(&name);
        let file = OpenOptions::new().write(true).create_new(true).open(&beside)?;
        Ok(AuditFile { file, name, beside: Some(beside) })
    }

    pub fn write(mut self, journal: &Journal) -> io::Result<()> {
        if self.beside.is_none() {
            // A device or a pipe has no length.
            let _ = self.file.set_len(0);
        }
        journal.write(&mut BufWriter::with_capacity(1 << 16, &self.file))?;
        if let Some(beside) = &self.beside {
            fs::rename(beside, &self.name)?;
            self.beside = None;
        }
        Ok(())
    }
}

fn beside(name: &Path) -> PathBuf {
    let mut beside = name.as_os_str().to_owned();
    beside.push(format!(".{}", std::process::id()));
    PathBuf::from(beside)
}

impl Drop for AuditFile {
    fn drop(&mut self) {
        if let Some(beside) = &self.beside {
            let _ = fs::remove_file(beside);
        }
    }
}
