//! The stride queue: what clients are charged, and how they join, change and leave.

use crate::heap::Heap;

const STRIDE_SCALE: u64 = 1 << 40;

/// The logarithm of the units that a client is charged per stride.
const QUANTUM: u32 = 10;

/// A client keeps its last tickets and stride when it leaves. While it competes its pass stands in the heap.
#[derive(Clone, Copy)]
struct Client {
    flow: u32,
    tickets: u32,
    stride: u64,
    remain: i128,
}

impl Client {
    /// Takes other tickets, and the remain that was on the old stride to the new one.
    fn rescale(&mut self, tickets: u32, remain: i128) {
        let stride = STRIDE_SCALE / u64::from(tickets);
        self.remain = rescaled(remain, stride, self.stride);
        self.stride = stride;
        self.tickets = tickets;
    }
}

/// Clients by the places of their flows.
pub struct Queue {
    heap: Heap,
    clients: [Client; 64],
    /// The tickets of those that compete, and the stride of that many as last computed.
    tickets: u64,
    strided: u64,
    stride: u64,
    pass: i128,
    last: u64,
    clock: u64,
}

/// The remain on a new stride, rounded down; the stride itself where there was none before.
fn rescaled(remain: i128, new: u64, old: u64) -> i128 {
    if old == 0 {
        i128::from(new)
    } else if remain >= 0 {
        divided(remain.unsigned_abs() * u128::from(new), old) as i128
    } else {
        -(divided(remain.unsigned_abs() * u128::from(new) + u128::from(old - 1), old) as i128)
    }
}

fn divided(number: u128, by: u64) -> u128 {
    match u64::try_from(number) {
        Ok(small) => u128::from(small / by),
        Err(_) => number / u128::from(by),
    }
}

impl Queue {
    pub fn new() -> Queue {
        Queue {
            heap: Heap::new(),
            clients: [Client { flow: 0, tickets: 0, stride: 0, remain: 0 }; 64],
            tickets: 0,
            strided: 0,
            stride: 0,
            pass: 0,
            last: 0,
            clock: 0,
        }
    }

    /// Puts the client of a new flow at a place.
    pub fn add(&mut self, place: usize, flow: u32) {
        self.clients[place] = Client { flow, tickets: 0, stride: 0, remain: 0 };
    }

    /// The place of the flow that is served next.
    pub fn least(&self) -> Option<usize> {
        self.heap.first().map(usize::from)
    }

    /// Whether a client competes, and its pass or its remain.
    pub fn position(&self, place: usize) -> (bool, i128) {
        if self.heap.contains(place as u8) {
            (true, self.heap.pass(place as u8))
        } else {
            (false, self.clients[place].remain)
        }
    }

    /// The clock, the global tickets and the global pass.
    pub fn global(&self) -> (u64, u64, i128) {
        (self.clock, self.tickets, self.pass)
    }

    /// Charges a client that has had tickets.
    pub fn charge(&mut self, place: usize, units: u32) {
        let share = self.count(place, units);
        if self.heap.contains(place as u8) {
            self.heap.add(place as u8, share);
        } else {
            self.clients[place].remain += share;
        }
    }

    /// Charges a client that has had tickets, and has none from now on.
    pub fn charge_last(&mut self, place: usize, units: u32) {
        let share = self.count(place, units);
        if self.heap.contains(place as u8) {
            self.leave(place);
        }
        self.clients[place].remain += share;
    }

    /// Counts units that a client is charged; what they add to its pass.
    fn count(&mut self, place: usize, units: u32) -> i128 {
        self.clock += u64::from(units);
        i128::from((self.clients[place].stride * u64::from(units)) >> QUANTUM)
    }

    /// Moves the global pass on by what was charged since the last time.
    fn update(&mut self) {
        if self.last == self.clock {
            return;
        }
        if self.tickets > 0 {
            if self.tickets != self.strided {
                self.strided = self.tickets;
                self.stride = STRIDE_SCALE / self.tickets;
            }
            let share = (u128::from(self.stride) * u128::from(self.clock - self.last)) >> QUANTUM;
            self.pass += share as i128;
        }
        self.last = self.clock;
    }

    /// Lets a client compete with that many tickets, or with none not compete.
    pub fn level(&mut self, place: usize, tickets: u32) {
        if !self.heap.contains(place as u8) {
            if tickets > 0 {
                self.join(place, tickets);
            }
        } else if tickets == 0 {
            self.leave(place);
        } else if tickets != self.clients[place].tickets {
            self.modify(place, tickets);
        }
    }

    fn join(&mut self, place: usize, tickets: u32) {
        self.update();
        self.tickets += u64::from(tickets);
        let client = &mut self.clients[place];
        if tickets != client.tickets {
            client.rescale(tickets, client.remain);
        }
        self.heap.push(place as u8, client.flow, self.pass + client.remain);
    }

    fn leave(&mut self, place: usize) {
        self.update();
        let client = &mut self.clients[place];
        self.tickets -= u64::from(client.tickets);
        client.remain = self.heap.pass(place as u8) - self.pass;
        self.heap.remove(place as u8);
    }

    fn modify(&mut self, place: usize, tickets: u32) {
        self.update();
        let client = &mut self.clients[place];
        self.tickets = self.tickets - u64::from(client.tickets) + u64::from(tickets);
        client.rescale(tickets, self.heap.pass(place as u8) - self.pass);
        self.heap.set_pass(place as u8, self.pass + client.remain);
    }
}
