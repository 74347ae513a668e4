//! A seeded source of choices. One seed gives the same files on every machine.

/// What a field was given: its name, and the value or which of its kinds of value.
pub type Choice = (&'static str, u64);

#[derive(Clone)]
pub struct Dice {
    state: u64,
    /// Of a thousand fields, how many are given a fault.
    faults: u64,
    /// So many fields go without: the first fault hides what comes behind it, and the tables come late.
    without: usize,
    /// What was chosen for the file so far, and how much of it is a fault: `record` picks its cases by it.
    pub choices: Vec<Choice>,
    pub broken: usize,
}

impl Dice {
    pub fn new(seed: u64) -> Dice {
        Dice { state: seed, faults: 0, without: 0, choices: Vec::new(), broken: 0 }
    }

    /// From here on a new file: with no fault, few or many.
    pub fn start(&mut self) {
        self.choices.clear();
        self.broken = 0;
        self.faults = self.pick(&[0, 0, 15, 30, 60, 120]);
        self.without = self.pick(&[0, 10, 20, 30]);
    }

    /// Splitmix64.
    fn next(&mut self) -> u64 {
        self.state = self.state.wrapping_add(0x9e37_79b9_7f4a_7c15);
        let z = (self.state ^ (self.state >> 30)).wrapping_mul(0xbf58_476d_1ce4_e5b9);
        let z = (z ^ (z >> 27)).wrapping_mul(0x94d0_49bb_1331_11eb);
        z ^ (z >> 31)
    }

    /// Below `n`, and 0 for 0.
    pub fn below(&mut self, n: u64) -> u64 {
        self.next() % n.max(1)
    }

    pub fn index(&mut self, n: usize) -> usize {
        self.below(n as u64) as usize
    }

    pub fn one_in(&mut self, n: u64) -> bool {
        self.below(n) == 0
    }

    pub fn pick<T: Copy>(&mut self, from: &[T]) -> T {
        from[self.index(from.len())]
    }

    pub fn shuffle<T>(&mut self, row: &mut [T]) {
        for k in 1..row.len() {
            row.swap(k, self.index(k + 1));
        }
    }

    pub fn bytes(&mut self, n: usize) -> Vec<u8> {
        (0..n).map(|_| self.next() as u8).collect()
    }

    /// One of the usual values, or now and then one of the faults.
    pub fn choose(&mut self, field: &'static str, usual: &[u64], faults: &[u64]) -> u64 {
        let faulty = self.below(1000) < self.faults && self.choices.len() >= self.without;
        let value = self.pick(if faulty { faults } else { usual });
        self.broken += usize::from(faulty);
        self.choices.push((field, value));
        value
    }

    /// Whether this place has its fault.
    pub fn fault(&mut self, place: &'static str) -> bool {
        self.choose(place, &[0], &[1]) == 1
    }
}
