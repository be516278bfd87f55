//! Names, and a small table of what they stand for.

/// The bytes of a name, one after the other, the last of them lowest.
pub type Name = u128;

pub const BASE: Name = u32::from_be_bytes(*b"base") as Name;

/// More than there are names, so that most stand where their hash puts them.
const SEATS: usize = 256;

/// What at most 64 names stand for. A name stands at the seat of its hash or, where others are before it, at the next
/// seat behind them. A free seat has the name 0.
pub struct Names {
    names: Box<[Name; SEATS]>,
    places: [u8; SEATS],
    count: usize,
}

fn seat_of(name: Name) -> usize {
    let folded = name as u64 ^ ((name >> 64) as u64).rotate_left(29);
    (folded.wrapping_mul(0x9e37_79b9_7f4a_7c15) >> 56) as usize
}

fn behind(seat: usize) -> usize {
    (seat + 1) % SEATS
}

impl Names {
    pub fn new() -> Names {
        Names { names: Box::new([0; SEATS]), places: [0; SEATS], count: 0 }
    }

    pub fn len(&self) -> usize {
        self.count
    }

    /// The seat of a name, or the free one where it would stand.
    fn find(&self, name: Name) -> usize {
        let mut seat = seat_of(name);
        while self.names[seat] != 0 && self.names[seat] != name {
            seat = behind(seat);
        }
        seat
    }

    pub fn get(&self, name: Name) -> Option<usize> {
        let seat = self.find(name);
        (self.names[seat] == name).then(|| usize::from(self.places[seat]))
    }

    pub fn insert(&mut self, name: Name, place: usize) {
        let seat = self.find(name);
        self.names[seat] = name;
        self.places[seat] = place as u8;
        self.count += 1;
    }

    /// Takes a name out. What stands behind it and would not be found over the free seat moves up.
    pub fn remove(&mut self, name: Name) {
        let mut free = self.find(name);
        let mut seat = behind(free);
        while self.names[seat] != 0 {
            let wanted = seat_of(self.names[seat]);
            let from_wanted = seat.wrapping_sub(wanted) % SEATS;
            let from_free = seat.wrapping_sub(free) % SEATS;
            if from_free <= from_wanted {
                self.names[free] = self.names[seat];
                self.places[free] = self.places[seat];
                free = seat;
            }
            seat = behind(seat);
        }
        self.names[free] = 0;
        self.count -= 1;
    }
}
