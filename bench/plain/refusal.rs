//! Why a line is refused.

#[derive(Clone, Copy)]
pub enum Refusal {
    Spent,
    Syntax,
    Range,
    NoCurrency,
    NoTicket,
    NoFlow,
    NoTariff,
    Taken,
    Base,
    InUse,
    Funding,
    Unfunded,
    Crowded,
    Cycle,
    Deep,
    TableFull,
    Sending,
    BufferFull,
    Broken,
    Held,
    NotHeld,
}

use Refusal::*;

impl Refusal {
    pub fn text(self) -> &'static [u8] {
        match self {
            Spent => b"no 2 Spent\n",
            Syntax => b"no 3 Syntax\n",
            Range => b"no 4 Range\n",
            NoCurrency => b"no 5 NoCurrency\n",
            NoTicket => b"no 6 NoTicket\n",
            NoFlow => b"no 7 NoFlow\n",
            NoTariff => b"no 8 NoTariff\n",
            Taken => b"no 9 Taken\n",
            Base => b"no 10 Base\n",
            InUse => b"no 11 InUse\n",
            Funding => b"no 12 Funding\n",
            Unfunded => b"no 13 Unfunded\n",
            Crowded => b"no 14 Crowded\n",
            Cycle => b"no 15 Cycle\n",
            Deep => b"no 16 Deep\n",
            TableFull => b"no 17 TableFull\n",
            Sending => b"no 18 Sending\n",
            BufferFull => b"no 19 BufferFull\n",
            Broken => b"no 20 Broken\n",
            Held => b"no 21 Held\n",
            NotHeld => b"no 22 NotHeld\n",
        }
    }
}
