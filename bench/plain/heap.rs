//! A heap of the clients that compete, by pass and flow number. Each knows its seat.

/// The seat of a client that does not compete.
const OUT: u8 = u8::MAX;

#[derive(Clone, Copy)]
struct Entry {
    pass: i128,
    flow: u32,
    place: u8,
}

impl Entry {
    fn is_before(&self, other: &Entry) -> bool {
        (self.pass < other.pass) | ((self.pass == other.pass) & (self.flow < other.flow))
    }
}

/// Entries by value, and the seats by the places of the flows.
pub struct Heap {
    entries: Vec<Entry>,
    seats: [u8; 256],
}

impl Heap {
    pub fn new() -> Heap {
        Heap { entries: Vec::with_capacity(64), seats: [OUT; 256] }
    }

    /// The place of the first.
    pub fn first(&self) -> Option<u8> {
        self.entries.first().map(|entry| entry.place)
    }

    pub fn contains(&self, place: u8) -> bool {
        self.seats[usize::from(place)] != OUT
    }

    fn seat(&self, place: u8) -> usize {
        usize::from(self.seats[usize::from(place)])
    }

    pub fn pass(&self, place: u8) -> i128 {
        self.entries[self.seat(place)].pass
    }

    pub fn push(&mut self, place: u8, flow: u32, pass: i128) {
        self.entries.push(Entry { pass, flow, place });
        self.seats[usize::from(place)] = (self.entries.len() - 1) as u8;
        self.rise(self.entries.len() - 1);
    }

    pub fn remove(&mut self, place: u8) {
        let seat = self.seat(place);
        self.seats[usize::from(place)] = OUT;
        self.entries.swap_remove(seat);
        if let Some(moved) = self.entries.get(seat) {
            self.seats[usize::from(moved.place)] = seat as u8;
            if !self.rise(seat) {
                self.sink(seat);
            }
        }
    }

    pub fn set_pass(&mut self, place: u8, pass: i128) {
        let seat = self.seat(place);
        let before = std::mem::replace(&mut self.entries[seat].pass, pass);
        if pass < before {
            self.rise(seat);
        } else {
            self.sink(seat);
        }
    }

    /// Adds to a pass. The entry mostly ends far below, so it sinks to the end and rises from there.
    pub fn add(&mut self, place: u8, share: i128) {
        let mut seat = self.seat(place);
        self.entries[seat].pass += share;
        let entry = self.entries[seat];
        let entries = &mut self.entries[..];
        while let Some(child) = first_child(entries, seat) {
            entries[seat] = entries[child];
            self.seats[usize::from(entries[seat].place)] = seat as u8;
            seat = child;
        }
        entries[seat] = entry;
        self.seats[usize::from(place)] = seat as u8;
        self.rise(seat);
    }

    /// Lets the entry at a seat rise to where it belongs; whether it rose.
    fn rise(&mut self, start: usize) -> bool {
        let entries = &mut self.entries[..];
        let entry = entries[start];
        let mut seat = start;
        while seat > 0 && entry.is_before(&entries[(seat - 1) / 2]) {
            entries[seat] = entries[(seat - 1) / 2];
            self.seats[usize::from(entries[seat].place)] = seat as u8;
            seat = (seat - 1) / 2;
        }
        if seat == start {
            return false;
        }
        entries[seat] = entry;
        self.seats[usize::from(entry.place)] = seat as u8;
        true
    }

    /// Lets the entry at a seat sink to where it belongs.
    fn sink(&mut self, start: usize) {
        let entries = &mut self.entries[..];
        let entry = entries[start];
        let mut seat = start;
        while let Some(child) = first_child(entries, seat).filter(|child| entries[*child].is_before(&entry)) {
            entries[seat] = entries[child];
            self.seats[usize::from(entries[seat].place)] = seat as u8;
            seat = child;
        }
        if seat != start {
            entries[seat] = entry;
            self.seats[usize::from(entry.place)] = seat as u8;
        }
    }
}

/// The seat of the first of the entries right below one.
fn first_child(entries: &[Entry], seat: usize) -> Option<usize> {
    match entries.get(2 * seat + 1..)? {
        [left, right, ..] => Some(2 * seat + 1 + usize::from(right.is_before(left))),
        [_] => Some(2 * seat + 1),
        [] => None,
    }
}
