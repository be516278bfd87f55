//! The link: each line is an event of it, or none.

use crate::buffer::{Buffer, is_hexadecimal};
use crate::frame::{Header, Version};
use crate::ledger::Ledger;
use crate::names::{Name, Names};
use crate::output::Output;
use crate::queue::Queue;
use crate::refusal::Refusal::{self, *};
use crate::report::{self, Row, Totals};
use crate::words::{name, name_first, number, number_first, split};
use std::io::{self, ErrorKind, Write};
use std::mem;

pub const MAX_LINE: usize = 20480;
const MAX_FLOWS: usize = 64;
const MAX_TICKETS: u64 = 1 << 20;

struct Tariff {
    number: u8,
    cell: u32,
    overhead: u32,
    price: u64,
}

static TARIFFS: [Tariff; 4] = [
    Tariff { number: 1, cell: 1, overhead: 0, price: 1 },
    Tariff { number: 2, cell: 48, overhead: 16, price: 2 },
    Tariff { number: 3, cell: 1024, overhead: 0, price: 1 },
    Tariff { number: 4, cell: 2048, overhead: 1024, price: 3 },
];

struct Flow {
    name: Name,
    number: u32,
    next: u32,
    tariff: &'static Tariff,
    account: u64,
    held: bool,
    buffer: Buffer,
}

impl Flow {
    /// Posts that many bytes of a frame, and answers their units.
    fn post(&mut self, bytes: usize) -> u32 {
        let Tariff { cell, overhead, price, .. } = *self.tariff;
        let bytes = bytes as u32;
        let cells = if cell == 1 { bytes } else { cell * bytes.div_ceil(cell) };
        let units = if bytes == 0 { 0 } else { overhead + cells };
        self.account += price * u64::from(units);
        units
    }

    /// The header of the frame of the next packet that comes.
    fn header(&self) -> Header {
        Header { tariff: self.tariff.number, flow: self.number, seq: self.next }
    }

    /// Whether a packet that has just come is the first one that the flow could send.
    fn wakes(&self) -> bool {
        self.buffer.len() == 1 && !self.held
    }

    /// The number of the first packet.
    fn head(&self) -> u64 {
        u64::from(self.next) - self.buffer.len() as u64
    }
}

/// A frame of which a part is out.
struct Part {
    place: usize,
    out: usize,
}

/// The answer to a turn on a writer.
#[derive(Clone, Copy, PartialEq, Eq)]
pub enum Turn {
    Wrote(usize),
    Torn,
    Idle,
    Again,
    Broken,
    Spent,
}

pub struct Link {
    version: Version,
    life: u64,
    events: u64,
    /// Whether no line of a script was answered.
    is_fresh: bool,
    broken: bool,
    /// The packets that closed flows accepted, those of them that were dropped, and the sum of their accounts.
    closed: (u64, u64, u64),
    /// How many bytes were written that are not on the tape.
    sent: u64,
    /// The places of the open flows, and those where there is none.
    names: Names,
    free: u64,
    flows: Vec<Option<Flow>>,
    opened: u32,
    ledger: Ledger,
    queue: Queue,
    part: Option<Part>,
    /// The place of the flow whose first packet was torn.
    torn: Option<usize>,
    tape: Vec<u8>,
    output: Output,
}

impl Link {
    /// A link of a version. The first line of a script may choose another one.
    pub fn new(version: Version, life: u64, output: Output) -> Link {
        Link {
            version,
            life,
            events: 0,
            is_fresh: true,
            broken: false,
            closed: (0, 0, 0),
            sent: 0,
            names: Names::new(),
            free: u64::MAX,
            flows: (0..MAX_FLOWS).map(|_| None).collect(),
            opened: 0,
            ledger: Ledger::new(),
            queue: Queue::new(),
            part: None,
            torn: None,
            tape: Vec::new(),
            output,
        }
    }

    pub fn answer(&mut self, line: &[u8]) -> io::Result<()> {
        self.output.make_room()?;
        let is_first = mem::replace(&mut self.is_fresh, false);
        let answered = if line.len() > MAX_LINE {
            Err(Syntax)
        } else if is_first && let Some(version) = Version::of_audit(line) {
            self.version = version;
            Ok(())
        } else if let Some(words) = line.strip_prefix(b"send ") {
            self.send(words)
        } else if let Some(words) = line.strip_prefix(b"turn ") {
            self.turn(words)
        } else if line == b"torn" {
            self.tear()
        } else {
            self.command(line)
        };
        if let Err(refusal) = answered {
            self.output.text(refusal.text());
        }
        Ok(())
    }

    /// Answers a line of a control connection into an output that has room for a report; whether it was an event.
    pub fn answer_control(&mut self, line: &[u8], output: &mut Output) -> bool {
        let before = self.events;
        mem::swap(&mut self.output, output);
        let answered = if line.len() > MAX_LINE { Err(Syntax) } else { self.command(line) };
        if let Err(refusal) = answered {
            self.output.text(refusal.text());
        }
        mem::swap(&mut self.output, output);
        self.events > before
    }

    /// All that was written.
    pub fn finish(&mut self) -> io::Result<()> {
        self.output.finish(&self.tape)
    }

    /// Writes the report.
    pub fn report(&mut self) -> io::Result<()> {
        self.put_report();
        self.output.flush()
    }

    fn put_report(&mut self) {
        let text = report::text(&self.totals(), &self.rows());
        self.output.text(&text);
    }

    fn command(&mut self, line: &[u8]) -> Result<(), Refusal> {
        if line == b"report" {
            self.put_report();
            return Ok(());
        }
        let (keyword, words) = split(line).ok_or(Syntax)?;
        match keyword {
            b"fund" => self.fund(words),
            b"unfund" => {
                let ticket = number(words).ok_or(Syntax)?;
                self.change(|link| link.ledger.unfund(ticket))
            }
            b"mktkt" => self.make_ticket(words),
            b"rmtkt" => {
                let ticket = number(words).ok_or(Syntax)?;
                self.change(|link| link.ledger.remove_ticket(ticket))
            }
            b"mkcur" => {
                let currency = name(words).ok_or(Syntax)?;
                self.change(|link| link.ledger.make_currency(currency))
            }
            b"rmcur" => {
                let currency = name(words).ok_or(Syntax)?;
                self.change(|link| link.ledger.remove_currency(currency))
            }
            b"open" => self.open(words),
            b"close" => self.close(words),
            b"hold" => self.set_held(words, true),
            b"resume" => self.set_held(words, false),
            b"amend" => {
                let (ticket, words) = number_first(words).ok_or(Syntax)?;
                let amount = number(words).ok_or(Syntax)?;
                self.change(|link| link.ledger.amend(ticket, amount))
            }
            _ => Err(Syntax),
        }
    }

    pub fn is_spent(&self) -> bool {
        self.events == self.life
    }

    /// Whether a frame is in part, or some flow competes, and the link could still send.
    pub fn is_unsent(&self) -> bool {
        !self.broken && !self.is_spent() && self.sending().is_some()
    }

    pub fn is_broken(&self) -> bool {
        self.broken
    }

    /// The totals in the report of the link.
    fn totals(&self) -> Totals {
        let (clock, tickets, pass) = self.queue.global();
        let (accepted, dropped, past) = self.closed;
        let open = || self.flows.iter().flatten();
        let accepted = accepted + open().map(|flow| u64::from(flow.next) - 1).sum::<u64>();
        let waiting = open().map(|flow| flow.buffer.len() as u64).sum::<u64>() - u64::from(self.torn.is_some());
        let torn = u64::from(self.broken);
        let bytes = self.tape.len() as u64 + self.sent;
        let link = if self.broken { 2 } else { u64::from(self.part.is_some()) };
        Totals { clock, accepted, torn, waiting, dropped, bytes, past, tickets, pass, link }
    }

    /// The lines of the open flows in the report, in order of opening.
    fn rows(&self) -> Vec<Row> {
        let mut rows: Vec<Row> = (0..MAX_FLOWS).filter_map(|place| self.row(place)).collect();
        rows.sort_by_key(|row| row.number);
        rows
    }

    fn row(&self, place: usize) -> Option<Row> {
        let flow = self.flows[place].as_ref()?;
        let (competes, position) = self.queue.position(place);
        Some(Row {
            number: flow.number,
            name: flow.name,
            tickets: self.ledger.worths.sum(place).min(MAX_TICKETS),
            waiting: flow.buffer.len() - usize::from(self.torn == Some(place)),
            account: flow.account,
            competes,
            held: flow.held,
            position,
        })
    }

    fn check_life(&self) -> Result<(), Refusal> {
        if self.events == self.life { Err(Spent) } else { Ok(()) }
    }

    /// Counts an event of a command, a refused one too.
    fn event(&mut self) -> Result<(), Refusal> {
        self.check_life()?;
        self.events += 1;
        Ok(())
    }

    /// A command that answers `ok`.
    fn change(&mut self, command: impl FnOnce(&mut Link) -> Result<(), Refusal>) -> Result<(), Refusal> {
        self.event()?;
        command(self)?;
        self.level();
        self.output.text(b"ok\n");
        Ok(())
    }

    fn fund(&mut self, words: &[u8]) -> Result<(), Refusal> {
        let (ticket, words) = number_first(words).ok_or(Syntax)?;
        if let Some(flow) = words.strip_prefix(b"flow ") {
            let flow = name(flow).ok_or(Syntax)?;
            self.change(|link| link.ledger.fund_flow(ticket, link.names.get(flow)))
        } else {
            let currency = words.strip_prefix(b"cur ").and_then(name).ok_or(Syntax)?;
            self.change(|link| link.ledger.fund_currency(ticket, currency))
        }
    }

    fn make_ticket(&mut self, words: &[u8]) -> Result<(), Refusal> {
        let (amount, words) = number_first(words).ok_or(Syntax)?;
        let currency = name(words).ok_or(Syntax)?;
        self.event()?;
        let ticket = self.ledger.make_ticket(amount, currency)?;
        self.output.line(b"ticket", &[ticket], b"\n");
        Ok(())
    }

    fn open(&mut self, words: &[u8]) -> Result<(), Refusal> {
        let (name, words) = name_first(words).ok_or(Syntax)?;
        let (limit, tariff) = number_first(words).ok_or(Syntax)?;
        let tariff = number(tariff).ok_or(Syntax)?;
        self.event()?;
        if !(1..=1024).contains(&limit) {
            return Err(Range);
        }
        if !(1..=TARIFFS.len() as u64).contains(&tariff) {
            return Err(NoTariff);
        }
        if self.names.get(name).is_some() {
            return Err(Taken);
        }
        if self.names.len() == MAX_FLOWS {
            return Err(TableFull);
        }
        self.open_allowed(name, limit as usize, &TARIFFS[tariff as usize - 1]);
        self.output.line(b"flow", &[u64::from(self.opened)], b"\n");
        Ok(())
    }

    fn open_allowed(&mut self, name: Name, limit: usize, tariff: &'static Tariff) {
        let place = self.free.trailing_zeros() as usize;
        self.free &= self.free - 1;
        self.opened += 1;
        self.names.insert(name, place);
        let (number, buffer) = (self.opened, Buffer::new(self.version, limit));
        self.flows[place] = Some(Flow { name, number, next: 1, tariff, account: 0, held: false, buffer });
        self.ledger.worths.add_flow(place);
        self.queue.add(place, self.opened);
    }

    fn close(&mut self, words: &[u8]) -> Result<(), Refusal> {
        let name = name(words).ok_or(Syntax)?;
        self.event()?;
        let place = self.names.get(name).ok_or(NoFlow)?;
        if self.part.as_ref().is_some_and(|part| part.place == place) {
            return Err(Sending);
        }
        self.ledger.worths.remove_flow(place);
        self.level();
        self.names.remove(name);
        self.free |= 1 << place;
        let torn = self.torn.take_if(|torn| *torn == place).is_some();
        if let Some(flow) = self.flows[place].take() {
            let dropped = flow.buffer.len() - usize::from(torn);
            self.closed.0 += u64::from(flow.next) - 1;
            self.closed.1 += dropped as u64;
            self.closed.2 += flow.account;
            self.output.line(b"closed", &[u64::from(flow.number), dropped as u64, flow.account], b"\n");
        }
        Ok(())
    }

    /// Holds a flow, or ends its hold.
    fn set_held(&mut self, words: &[u8], held: bool) -> Result<(), Refusal> {
        let name = name(words).ok_or(Syntax)?;
        self.change(|link| {
            let place = link.names.get(name).ok_or(NoFlow)?;
            let flow = link.flows[place].as_mut().ok_or(NoFlow)?;
            if flow.held == held {
                return Err(if held { Held } else { NotHeld });
            }
            flow.held = held;
            let active = !held && flow.buffer.len() > 0;
            link.ledger.worths.set_active(place, active);
            Ok(())
        })
    }

    /// Levels the flows whose tickets may have changed.
    fn level(&mut self) {
        for place in crate::chains::places(self.ledger.settle()) {
            self.queue.level(place, self.ledger.worths.sum(place).min(MAX_TICKETS) as u32);
        }
    }

    /// The place of the flow that takes a packet of this size.
    fn receiver(&self, name: Name, size: usize) -> Result<usize, Refusal> {
        self.check_life()?;
        if size > self.version.max_payload() {
            return Err(Range);
        }
        let place = self.names.get(name).ok_or(NoFlow)?;
        if self.flows[place].as_ref().is_none_or(|flow| flow.buffer.is_full()) {
            return Err(BufferFull);
        }
        Ok(place)
    }

    fn send(&mut self, words: &[u8]) -> Result<(), Refusal> {
        let (name, payload) = name_first(words).ok_or(Syntax)?;
        if payload.is_empty() || payload.len() % 2 != 0 {
            return Err(Syntax);
        }
        let refusal = match self.receiver(name, payload.len() / 2) {
            Ok(place) => return self.accept(place, payload),
            Err(refusal) => refusal,
        };
        if !is_hexadecimal(payload) {
            return Err(Syntax);
        }
        self.events += u64::from(matches!(refusal, NoFlow | BufferFull));
        Err(refusal)
    }

    /// A packet comes for a flow that has room for it.
    fn accept(&mut self, place: usize, payload: &[u8]) -> Result<(), Refusal> {
        let flow = self.flows[place].as_mut().ok_or(NoFlow)?;
        if !flow.buffer.push(flow.header(), payload) {
            return Err(Syntax);
        }
        self.events += 1;
        self.output.line(b"packet", &[u64::from(flow.number), u64::from(flow.next)], b"\n");
        flow.next += 1;
        if flow.wakes() {
            self.ledger.worths.set_active(place, true);
            self.level();
        }
        Ok(())
    }

    /// A packet comes while the life is not spent. It is an event also where no flow takes it.
    pub fn arrive(&mut self, name: Name, payload: &[u8]) {
        let receiver = self.receiver(name, payload.len());
        self.events += 1;
        let Ok(place) = receiver else { return };
        let Some(flow) = &mut self.flows[place] else { return };
        flow.buffer.push_bytes(flow.header(), payload);
        flow.next += 1;
        if flow.wakes() {
            self.ledger.worths.set_active(place, true);
            self.level();
        }
    }

    /// The place of the flow whose frame is sent next, and how much of it is out.
    fn sending(&self) -> Option<Part> {
        match self.part {
            Some(Part { place, out }) => Some(Part { place, out }),
            None => self.queue.least().map(|place| Part { place, out: 0 }),
        }
    }

    /// Counts a link event, unless the link is broken or has nothing to send.
    fn begin(&mut self) -> Result<Option<Part>, Refusal> {
        if self.broken {
            return Err(Broken);
        }
        let part = self.sending();
        match part {
            Some(_) => self.events += 1,
            None => self.output.text(b"idle\n"),
        }
        Ok(part)
    }

    fn turn(&mut self, words: &[u8]) -> Result<(), Refusal> {
        let most = number(words).ok_or(Syntax)?;
        self.check_life()?;
        if !(1..=65535).contains(&most) {
            return Err(Range);
        }
        let Some(Part { place, out }) = self.begin()? else { return Ok(()) };
        let flow = self.flows[place].as_mut().ok_or(NoFlow)?;
        let rest = &flow.buffer.head()[out..];
        let count = rest.len().min(most as usize);
        let whole = count == rest.len();
        self.tape.extend_from_slice(&rest[..count]);
        let numbers = [u64::from(flow.number), flow.head(), count as u64];
        if whole {
            self.output.line(b"wrote", &numbers, b" whole\n");
            self.leave(place, out + count);
        } else {
            self.output.line(b"wrote", &numbers, b" part\n");
            self.part = Some(Part { place, out: out + count });
        }
        Ok(())
    }

    /// One write call with the rest of the frame in part, or of the next one.
    pub fn turn_on(&mut self, writer: &mut impl Write) -> Turn {
        if self.is_spent() {
            return Turn::Spent;
        }
        if self.broken {
            return Turn::Broken;
        }
        let Some(Part { place, out }) = self.sending() else { return Turn::Idle };
        let Some(flow) = &self.flows[place] else { return Turn::Idle };
        let frame = flow.buffer.head();
        let size = frame.len();
        match writer.write(&frame[out..]) {
            Ok(count) if count > 0 => {
                self.events += 1;
                self.sent += count as u64;
                if out + count == size {
                    self.leave(place, size);
                } else {
                    self.part = Some(Part { place, out: out + count });
                }
                Turn::Wrote(count)
            }
            Err(fault) if fault.kind() == ErrorKind::Interrupted => Turn::Again,
            _ => {
                self.events += 1;
                self.fail(place, out);
                Turn::Torn
            }
        }
    }

    /// The first frame of a flow is out whole.
    fn leave(&mut self, place: usize, size: usize) {
        self.part = None;
        let Some(flow) = &mut self.flows[place] else { return };
        let units = flow.post(size);
        flow.buffer.pop(size);
        if flow.buffer.len() > 0 {
            self.queue.charge(place, units);
        } else {
            self.queue.charge_last(place, units);
            self.ledger.worths.set_active(place, false);
            self.level();
        }
    }

    fn tear(&mut self) -> Result<(), Refusal> {
        self.check_life()?;
        let Some(Part { place, out }) = self.begin()? else { return Ok(()) };
        self.fail(place, out);
        let flow = self.flows[place].as_ref().ok_or(NoFlow)?;
        self.output.line(b"torn", &[u64::from(flow.number), flow.head(), out as u64], b"\n");
        Ok(())
    }

    /// The frame of a flow is torn after that many bytes.
    fn fail(&mut self, place: usize, out: usize) {
        self.broken = true;
        self.part = None;
        self.torn = Some(place);
        let Some(flow) = &mut self.flows[place] else { return };
        let units = flow.post(out);
        self.queue.charge(place, units);
    }
}
