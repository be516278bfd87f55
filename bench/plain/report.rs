//! The text of a report.

use crate::names::Name;
use std::fmt::Write;

pub struct Totals {
    pub clock: u64,
    pub accepted: u64,
    pub torn: u64,
    pub waiting: u64,
    pub dropped: u64,
    pub bytes: u64,
    pub past: u64,
    pub tickets: u64,
    pub pass: i128,
    pub link: u64,
}

pub struct Row {
    pub number: u32,
    pub name: Name,
    pub tickets: u64,
    pub waiting: usize,
    pub account: u64,
    pub competes: bool,
    pub held: bool,
    pub position: i128,
}

/// The bytes of a name, as text.
pub fn spelled(name: Name) -> String {
    name.to_be_bytes().iter().filter(|byte| **byte != 0).map(|byte| char::from(*byte)).collect()
}

pub fn text(totals: &Totals, rows: &[Row]) -> Vec<u8> {
    let Totals { clock, accepted, torn, waiting, dropped, bytes, past, tickets, pass, link } = *totals;
    let written = accepted - torn - waiting - dropped;
    let before = [("clock", clock), ("accepted", accepted), ("written", written), ("torn", torn)];
    let after = [("waiting", waiting), ("dropped", dropped), ("bytes", bytes), ("past", past), ("tickets", tickets)];
    let mut text = String::with_capacity(4096);
    for (key, value) in before.iter().chain(&after) {
        let _ = writeln!(text, "{key:<8}{value:>26}");
    }
    let _ = writeln!(text, "{:<8}{pass:>26}\n{:<8}{link:>26}", "pass", "link");
    for Row { number, name, tickets, waiting, account, competes, held, position } in rows {
        let name = spelled(*name);
        let state = match (*held, *competes) {
            (true, _) => "hld",
            (false, true) => "in",
            (false, false) => "out",
        };
        let front = format_args!("flow {number:>8} {name:<16} {tickets:>7} {waiting:>4} {account:>17}");
        let _ = writeln!(text, "{front} {state:<3} {position:>26}");
    }
    text.push_str("end\n");
    text.into_bytes()
}
