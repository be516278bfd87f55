//! What is active and what it is worth. Each currency keeps its active amount and its value, each flow its sum. A
//! change of activity goes on to the backing only where an active amount leaves zero or reaches it, and what changed
//! is computed anew downwards only, in the order of depth.

use crate::chains::{Chains, MAX_CHAIN, places};

const BASE_PLACE: usize = 0;

/// The seat of a ticket that is not active.
const ASLEEP: u16 = u16::MAX;

#[derive(Clone, Copy, PartialEq, Eq)]
pub enum Holder {
    Nobody,
    Currency(u8),
    Flow(u8),
}

#[derive(Clone, Copy)]
struct Ticket {
    amount: u32,
    denomination: u8,
    holder: Holder,
    /// Where it stands among the active tickets of its denomination, and 0 where it is active and that is `base`.
    seat: u16,
}

/// An active ticket, and what it is worth as last computed.
#[derive(Clone, Copy)]
struct Share {
    worth: u64,
    amount: u32,
    ticket: u16,
    holder: Holder,
}

/// The tickets that fund a holder.
#[derive(Clone, Copy)]
struct Funding {
    count: usize,
    tickets: [u16; 16],
}

const NO_FUNDING: Funding = Funding { count: 0, tickets: [0; 16] };

impl Funding {
    fn tickets(&self) -> &[u16] {
        &self.tickets[..self.count]
    }

    fn add(&mut self, ticket: usize) {
        self.tickets[self.count] = ticket as u16;
        self.count += 1;
    }

    fn remove(&mut self, ticket: usize) {
        if let Some(at) = self.tickets().iter().position(|other| usize::from(*other) == ticket) {
            self.count -= 1;
            self.tickets[at] = self.tickets[self.count];
        }
    }
}

#[derive(Clone)]
struct Currency {
    /// The sum of the amounts of its active tickets.
    active: u64,
    /// The sum of the worths of its backing.
    value: u64,
    shares: Vec<Share>,
    backing: Funding,
}

const NEW_CURRENCY: Currency = Currency { active: 0, value: 0, shares: Vec::new(), backing: NO_FUNDING };

#[derive(Clone, Copy)]
struct Flow {
    active: bool,
    /// The sum of the worths of the tickets that fund it.
    sum: u64,
    funding: Funding,
}

const NEW_FLOW: Flow = Flow { active: false, sum: 0, funding: NO_FUNDING };

pub struct Worths {
    tickets: Vec<Ticket>,
    currencies: Vec<Currency>,
    flows: [Flow; 64],
    /// The currencies whose shares are to be computed anew, by their places in the chains.
    stale: u64,
    /// The flows whose sums have changed.
    moved: u64,
}

impl Worths {
    pub fn new() -> Worths {
        let ticket = Ticket { amount: 0, denomination: 0, holder: Holder::Nobody, seat: ASLEEP };
        Worths {
            tickets: vec![ticket; 1024],
            currencies: vec![NEW_CURRENCY; 65],
            flows: [NEW_FLOW; 64],
            stale: 0,
            moved: 0,
        }
    }

    pub fn add_ticket(&mut self, place: usize, amount: u32, denomination: usize) {
        let denomination = denomination as u8;
        self.tickets[place] = Ticket { amount, denomination, holder: Holder::Nobody, seat: ASLEEP };
    }

    pub fn holder(&self, ticket: usize) -> Holder {
        self.tickets[ticket].holder
    }

    pub fn denomination(&self, ticket: usize) -> usize {
        usize::from(self.tickets[ticket].denomination)
    }

    /// How many tickets fund a holder.
    pub fn funding(&self, holder: Holder) -> usize {
        match holder {
            Holder::Nobody => 0,
            Holder::Currency(place) => self.currencies[usize::from(place)].backing.count,
            Holder::Flow(place) => self.flows[usize::from(place)].funding.count,
        }
    }

    pub fn sum(&self, flow: usize) -> u64 {
        self.flows[flow].sum
    }

    /// A ticket without a holder funds one.
    pub fn fund(&mut self, ticket: usize, holder: Holder) {
        self.tickets[ticket].holder = holder;
        let wakes = match holder {
            Holder::Nobody => false,
            Holder::Currency(place) => {
                let currency = &mut self.currencies[usize::from(place)];
                currency.backing.add(ticket);
                currency.active > 0
            }
            Holder::Flow(place) => {
                let flow = &mut self.flows[usize::from(place)];
                flow.funding.add(ticket);
                flow.active
            }
        };
        if wakes {
            self.wake(ticket);
        }
    }

    /// A ticket loses its holder.
    pub fn unfund(&mut self, ticket: usize) {
        self.rest(ticket);
        match self.tickets[ticket].holder {
            Holder::Nobody => (),
            Holder::Currency(place) => self.currencies[usize::from(place)].backing.remove(ticket),
            Holder::Flow(place) => self.flows[usize::from(place)].funding.remove(ticket),
        }
        self.tickets[ticket].holder = Holder::Nobody;
    }

    /// A ticket has another amount from now on, and an active one weighs as much.
    pub fn amend(&mut self, ticket: usize, amount: u32) {
        let Ticket { amount: before, denomination, holder, seat } = self.tickets[ticket];
        self.tickets[ticket].amount = amount;
        if seat == ASLEEP {
            return;
        }
        let denomination = usize::from(denomination);
        if denomination == BASE_PLACE {
            self.pour(holder, u64::from(amount).wrapping_sub(u64::from(before)));
            return;
        }
        let currency = &mut self.currencies[denomination];
        currency.active = currency.active - u64::from(before) + u64::from(amount);
        currency.shares[usize::from(seat)].amount = amount;
        self.stale |= 1 << (denomination - 1);
    }

    /// A new flow stands at a place. Nothing funds it.
    pub fn add_flow(&mut self, flow: usize) {
        self.flows[flow] = NEW_FLOW;
    }

    /// A flow is no more: its tickets lose their holder.
    pub fn remove_flow(&mut self, flow: usize) {
        let funding = self.flows[flow].funding;
        funding.tickets().iter().for_each(|ticket| self.unfund(usize::from(*ticket)));
    }

    pub fn set_active(&mut self, flow: usize, active: bool) {
        self.flows[flow].active = active;
        let funding = self.flows[flow].funding;
        for ticket in funding.tickets() {
            if active {
                self.wake(usize::from(*ticket));
            } else {
                self.rest(usize::from(*ticket));
            }
        }
    }

    /// A ticket that is not active becomes so.
    fn wake(&mut self, place: usize) {
        let Ticket { amount, denomination, holder, .. } = self.tickets[place];
        let denomination = usize::from(denomination);
        if denomination == BASE_PLACE {
            self.tickets[place].seat = 0;
            self.pour(holder, u64::from(amount));
            return;
        }
        let currency = &mut self.currencies[denomination];
        let was_idle = currency.active == 0;
        currency.active += u64::from(amount);
        self.tickets[place].seat = currency.shares.len() as u16;
        currency.shares.push(Share { worth: 0, amount, ticket: place as u16, holder });
        self.stale |= 1 << (denomination - 1);
        if was_idle {
            let backing = self.currencies[denomination].backing;
            backing.tickets().iter().for_each(|ticket| self.wake(usize::from(*ticket)));
        }
    }

    /// A ticket is not active from now on.
    fn rest(&mut self, place: usize) {
        let Ticket { amount, denomination, seat, holder } = self.tickets[place];
        if seat == ASLEEP {
            return;
        }
        self.tickets[place].seat = ASLEEP;
        let denomination = usize::from(denomination);
        if denomination == BASE_PLACE {
            self.pour(holder, u64::from(amount).wrapping_neg());
            return;
        }
        let currency = &mut self.currencies[denomination];
        currency.active -= u64::from(amount);
        let is_idle = currency.active == 0;
        let worth = currency.shares.swap_remove(usize::from(seat)).worth;
        if let Some(moved) = currency.shares.get(usize::from(seat)) {
            self.tickets[usize::from(moved.ticket)].seat = seat;
        }
        self.pour(holder, worth.wrapping_neg());
        self.stale |= 1 << (denomination - 1);
        if is_idle {
            let backing = self.currencies[denomination].backing;
            backing.tickets().iter().for_each(|ticket| self.rest(usize::from(*ticket)));
        }
    }

    /// The worth of a ticket of this holder grows by so much, modulo 2^64.
    fn pour(&mut self, holder: Holder, growth: u64) {
        match holder {
            Holder::Nobody => (),
            Holder::Currency(place) => {
                let currency = &mut self.currencies[usize::from(place)];
                currency.value = currency.value.wrapping_add(growth);
                self.stale |= 1 << (place - 1);
            }
            Holder::Flow(place) => {
                let flow = &mut self.flows[usize::from(place)];
                flow.sum = flow.sum.wrapping_add(growth);
                self.moved |= 1 << place;
            }
        }
    }

    /// Computes the shares of what is stale, and answers the set of the flows whose sums have changed.
    pub fn settle(&mut self, chains: &Chains) -> u64 {
        while self.stale != 0 {
            // What is computed here makes stale only what is deeper.
            let least = places(self.stale).map(|place| chains.depth(place)).min().unwrap_or(MAX_CHAIN);
            for place in places(self.stale).filter(|place| chains.depth(*place) == least) {
                self.stale &= !(1 << place);
                self.weigh(place + 1);
            }
        }
        std::mem::take(&mut self.moved)
    }

    /// Computes what each active ticket of a currency is worth.
    fn weigh(&mut self, place: usize) {
        let currency = &mut self.currencies[place];
        let (value, active) = (currency.value, currency.active);
        let mut shares = std::mem::take(&mut currency.shares);
        // One division for all: a product by its result is at most one too small.
        let inverse = u64::MAX.checked_div(active).unwrap_or(0);
        for share in &mut shares {
            let product = value * u64::from(share.amount);
            let quotient = ((u128::from(product) * u128::from(inverse)) >> 64) as u64;
            let worth = quotient + u64::from(product - quotient * active >= active);
            if worth != share.worth {
                self.pour(share.holder, worth.wrapping_sub(share.worth));
                share.worth = worth;
            }
        }
        self.currencies[place].shares = shares;
    }
}
