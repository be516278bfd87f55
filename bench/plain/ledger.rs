//! Currencies, tickets and what they fund: the commands. What follows for the flows is in `worths`.

use crate::chains::Chains;
use crate::names::{BASE, Name, Names};
use crate::refusal::Refusal::{self, *};
use crate::worths::{Holder, Worths};

const MAX_CURRENCIES: usize = 64;
const MAX_TICKETS: usize = 1024;
const MAX_AMOUNT: u64 = 1 << 20;
const MAX_FUNDING: usize = 16;

/// Stands for the place of a ticket that is no more.
const GONE: u16 = u16::MAX;

/// The place of `base` among the currencies; that of another is one more than its place in the chains.
const BASE_PLACE: usize = 0;

pub struct Ledger {
    /// The places of the currencies besides `base`, and those where there is none.
    names: Names,
    free: u64,
    chains: Chains,
    /// How many tickets are denominated in each currency.
    issued: [u16; 65],
    /// The place of each ticket that was made, by its number less 1.
    numbers: Vec<u16>,
    free_tickets: Vec<u16>,
    pub worths: Worths,
}

impl Ledger {
    pub fn new() -> Ledger {
        Ledger {
            names: Names::new(),
            free: u64::MAX,
            chains: Chains::new(),
            issued: [0; 65],
            numbers: Vec::with_capacity(MAX_TICKETS),
            free_tickets: (0..MAX_TICKETS as u16).rev().collect(),
            worths: Worths::new(),
        }
    }

    fn currency(&self, name: Name) -> Option<usize> {
        if name == BASE { Some(BASE_PLACE) } else { self.names.get(name) }
    }

    fn ticket(&self, number: u64) -> Option<usize> {
        let place = *self.numbers.get(usize::try_from(number.wrapping_sub(1)).ok()?)?;
        (place != GONE).then_some(usize::from(place))
    }

    pub fn make_currency(&mut self, name: Name) -> Result<(), Refusal> {
        if self.currency(name).is_some() {
            return Err(Taken);
        }
        if self.names.len() == MAX_CURRENCIES {
            return Err(TableFull);
        }
        self.names.insert(name, 1 + self.free.trailing_zeros() as usize);
        self.free &= self.free - 1;
        Ok(())
    }

    pub fn remove_currency(&mut self, name: Name) -> Result<(), Refusal> {
        let place = self.currency(name).ok_or(NoCurrency)?;
        if place == BASE_PLACE {
            return Err(Base);
        }
        if self.issued[place] > 0 || self.worths.funding(Holder::Currency(place as u8)) > 0 {
            return Err(InUse);
        }
        self.names.remove(name);
        self.free |= 1 << (place - 1);
        Ok(())
    }

    /// Makes a ticket, and answers its number.
    pub fn make_ticket(&mut self, amount: u64, currency: Name) -> Result<u64, Refusal> {
        if !(1..=MAX_AMOUNT).contains(&amount) {
            return Err(Range);
        }
        let currency = self.currency(currency).ok_or(NoCurrency)?;
        let place = self.free_tickets.pop().ok_or(TableFull)?;
        self.worths.add_ticket(usize::from(place), amount as u32, currency);
        self.issued[currency] += 1;
        self.numbers.push(place);
        Ok(self.numbers.len() as u64)
    }

    pub fn remove_ticket(&mut self, number: u64) -> Result<(), Refusal> {
        let place = self.ticket(number).ok_or(NoTicket)?;
        if self.worths.holder(place) != Holder::Nobody {
            return Err(Funding);
        }
        self.issued[self.worths.denomination(place)] -= 1;
        self.numbers[number as usize - 1] = GONE;
        self.free_tickets.push(place as u16);
        Ok(())
    }

    /// Why a ticket cannot fund one more holder, where neither is amiss.
    fn check_funding(&self, place: usize, holder: Holder) -> Result<(), Refusal> {
        if self.worths.holder(place) != Holder::Nobody {
            return Err(Funding);
        }
        if self.worths.funding(holder) == MAX_FUNDING {
            return Err(Crowded);
        }
        Ok(())
    }

    pub fn fund_currency(&mut self, number: u64, currency: Name) -> Result<(), Refusal> {
        let place = self.ticket(number).ok_or(NoTicket)?;
        let to = self.currency(currency).ok_or(NoCurrency)?;
        if to == BASE_PLACE {
            return Err(Base);
        }
        let holder = Holder::Currency(to as u8);
        self.check_funding(place, holder)?;
        let from = self.worths.denomination(place);
        if from != BASE_PLACE {
            if self.chains.leads(to - 1, from - 1) {
                return Err(Cycle);
            }
            if self.chains.would_be_deep(from - 1, to - 1) {
                return Err(Deep);
            }
            self.chains.link(from - 1, to - 1);
        }
        self.worths.fund(place, holder);
        Ok(())
    }

    /// A ticket funds the flow at a place, where there is one.
    pub fn fund_flow(&mut self, number: u64, flow: Option<usize>) -> Result<(), Refusal> {
        let place = self.ticket(number).ok_or(NoTicket)?;
        let holder = Holder::Flow(flow.ok_or(NoFlow)? as u8);
        self.check_funding(place, holder)?;
        self.worths.fund(place, holder);
        Ok(())
    }

    pub fn unfund(&mut self, number: u64) -> Result<(), Refusal> {
        let place = self.ticket(number).ok_or(NoTicket)?;
        match self.worths.holder(place) {
            Holder::Nobody => return Err(Unfunded),
            Holder::Flow(_) => (),
            Holder::Currency(to) => {
                let from = self.worths.denomination(place);
                if from != BASE_PLACE {
                    self.chains.unlink(from - 1, usize::from(to) - 1);
                }
            }
        }
        self.worths.unfund(place);
        Ok(())
    }

    /// Changes the amount of a ticket, whatever it funds.
    pub fn amend(&mut self, number: u64, amount: u64) -> Result<(), Refusal> {
        if !(1..=MAX_AMOUNT).contains(&amount) {
            return Err(Range);
        }
        let place = self.ticket(number).ok_or(NoTicket)?;
        self.worths.amend(place, amount as u32);
        Ok(())
    }

    /// Computes what has to be computed anew, and answers the set of the flows whose tickets may have changed.
    pub fn settle(&mut self) -> u64 {
        self.worths.settle(&self.chains)
    }
}
