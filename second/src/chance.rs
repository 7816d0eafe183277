//! Numbers by chance, but the same ones for the same seed.

pub struct Chance {
    state: u64,
}

impl Chance {
    pub fn new(seed: u64, index: u64) -> Chance {
        let mut chance = Chance { state: seed };
        chance.state = chance.next() ^ index.wrapping_mul(0xd134_2543_de82_ef95);
        chance
    }

    /// The generator splitmix64.
    pub fn next(&mut self) -> u64 {
        self.state = self.state.wrapping_add(0x9e37_79b9_7f4a_7c15);
        let mut mixed = self.state;
        mixed = (mixed ^ (mixed >> 30)).wrapping_mul(0xbf58_476d_1ce4_e5b9);
        mixed = (mixed ^ (mixed >> 27)).wrapping_mul(0x94d0_49bb_1331_11eb);
        mixed ^ (mixed >> 31)
    }

    /// From 0 up to, not including, the limit, which is not 0.
    pub fn below(&mut self, limit: usize) -> usize {
        (self.next() % limit as u64) as usize
    }

    pub fn between(&mut self, least: usize, most: usize) -> usize {
        least + self.below(most - least + 1)
    }

    pub fn amount_up_to(&mut self, most: u64) -> u64 {
        self.next() % (most + 1)
    }

    pub fn one_in(&mut self, times: usize) -> bool {
        self.below(times) == 0
    }

    pub fn pick<T: Clone>(&mut self, list: &[T]) -> Option<T> {
        if list.is_empty() {
            return None;
        }
        let at = self.below(list.len());
        Some(list[at].clone())
    }

    /// Some different members of a list, in a random order.
    pub fn some<T: Clone>(&mut self, list: &[T], count: usize) -> Vec<T> {
        let mut mixed = list.to_vec();
        for at in (1..mixed.len()).rev() {
            mixed.swap(at, self.below(at + 1));
        }
        mixed.truncate(count);
        mixed
    }
}
