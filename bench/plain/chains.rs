//! Which currencies back which, `base` left out. A currency stands for the bit of its place, from 0.

/// The greatest number of currencies in a chain.
pub const MAX_CHAIN: usize = 8;

pub struct Chains {
    /// How many tickets of each currency fund each other one.
    links: Box<[[u16; 64]; 64]>,
    /// The currencies that back each one, and those that each one backs.
    above: [u64; 64],
    below: [u64; 64],
    /// How many stand in the longest chain that ends at each one, itself among them.
    depths: [u8; 64],
}

/// The places in a set, in order.
pub fn places(mut set: u64) -> impl Iterator<Item = usize> {
    std::iter::from_fn(move || {
        let place = set.trailing_zeros() as usize;
        set &= set.wrapping_sub(1);
        (place < 64).then_some(place)
    })
}

/// All that are one step from some of these.
fn step(steps: &[u64; 64], from: u64) -> u64 {
    places(from).fold(0, |found, place| found | steps[place])
}

impl Chains {
    pub fn new() -> Chains {
        Chains { links: Box::new([[0; 64]; 64]), above: [0; 64], below: [0; 64], depths: [1; 64] }
    }

    pub fn depth(&self, place: usize) -> usize {
        usize::from(self.depths[place])
    }

    /// Whether one currency is the other or backs it, directly or by a chain.
    pub fn leads(&self, from: usize, to: usize) -> bool {
        let mut reached = 1 << to;
        while reached != 0 && reached & (1 << from) == 0 {
            reached = step(&self.above, reached);
        }
        reached != 0
    }

    /// Whether some chain would be too long if one currency backed another.
    pub fn would_be_deep(&self, from: usize, to: usize) -> bool {
        let mut length = self.depth(from);
        let mut reached = 1 << to;
        while reached != 0 {
            length += 1;
            reached = step(&self.below, reached);
        }
        length > MAX_CHAIN
    }

    /// A ticket of one currency funds another.
    pub fn link(&mut self, from: usize, to: usize) {
        self.links[from][to] += 1;
        if self.links[from][to] == 1 {
            self.above[to] |= 1 << from;
            self.below[from] |= 1 << to;
            self.measure(to);
        }
    }

    /// A ticket of one currency ceases to fund another.
    pub fn unlink(&mut self, from: usize, to: usize) {
        self.links[from][to] -= 1;
        if self.links[from][to] == 0 {
            self.above[to] &= !(1 << from);
            self.below[from] &= !(1 << to);
            self.measure(to);
        }
    }

    /// Measures a depth anew and, where it has changed, the depths behind it.
    fn measure(&mut self, place: usize) {
        let depth = 1 + places(self.above[place]).map(|above| self.depths[above]).max().unwrap_or(0);
        if depth != self.depths[place] {
            self.depths[place] = depth;
            places(self.below[place]).for_each(|below| self.measure(below));
        }
    }
}
