//! Random tangled states. They are made directly, as sets of entries and payments that agree with
//! each other, so most of them could not come from a chain.

use crate::chain::*;
use crate::chance::Chance;
use crate::present::*;
use crate::story::OWN_ADDRESS;

const FEWEST_PAYMENTS: usize = 10;
const FOREIGN_ADDRESS: u32 = 99;
const COINS: u64 = 200;
const EXPECTED: u64 = 300;
const PAYMENTS: u64 = 1_000;
const NOWHERE: u64 = 5_000;

/// From the first to the second number, both possible.
type Range = (usize, usize);

/// How one style of tangling makes its states.
pub struct Style {
    pub name: &'static str,
    /// Coins in the UTxO.
    coins: Range,
    /// Transaction numbers in expected, and the references of each.
    numbers: Range,
    siblings: Range,
    /// Of each payment.
    inputs: Range,
    own_outputs: Range,
    /// How often an input is a coin, an expected reference, a payment's output, or stands nowhere.
    sources: [usize; 4],
    /// In how many times out of eight a payment's own output stands in the UTxO or is expected.
    standing: [usize; 2],
    /// How many times the amounts of outputs are those of coins.
    generous: u64,
}

const SHARED_COINS: Style = Style {
    name: "shared coins",
    coins: (6, 14),
    numbers: (0, 2),
    siblings: (1, 3),
    inputs: (1, 3),
    own_outputs: (0, 2),
    sources: [1, 0, 0, 0],
    standing: [0, 0],
    generous: 1,
};

pub const STYLES: [Style; 11] = [
    SHARED_COINS,
    Style { name: "sparse clashes", coins: (20, 36), inputs: (2, 4), ..SHARED_COINS },
    // About as many coins as two payments need: most clashes are between two.
    Style { name: "pairs", coins: (8, 10), inputs: (1, 1), own_outputs: (0, 1), ..SHARED_COINS },
    Style {
        name: "chains on expected",
        coins: (10, 20),
        inputs: (1, 2),
        own_outputs: (1, 3),
        sources: [2, 0, 3, 0],
        standing: [0, 4],
        ..SHARED_COINS
    },
    Style {
        name: "rings",
        coins: (2, 6),
        inputs: (1, 2),
        own_outputs: (1, 3),
        sources: [1, 0, 6, 0],
        ..SHARED_COINS
    },
    Style {
        name: "generous",
        coins: (10, 24),
        inputs: (1, 3),
        own_outputs: (1, 3),
        sources: [3, 1, 2, 0],
        standing: [0, 2],
        generous: 4,
        ..SHARED_COINS
    },
    Style {
        name: "outputs in the UTxO",
        coins: (6, 16),
        own_outputs: (1, 3),
        sources: [2, 0, 2, 0],
        standing: [4, 1],
        ..SHARED_COINS
    },
    // A rollback took the coins: all payments live on the outputs of a few expected transactions.
    Style {
        name: "siblings",
        coins: (0, 4),
        numbers: (2, 4),
        siblings: (6, 8),
        inputs: (1, 1),
        own_outputs: (0, 1),
        sources: [0, 1, 0, 0],
        ..SHARED_COINS
    },
    Style {
        name: "half expected",
        coins: (24, 40),
        numbers: (2, 3),
        siblings: (8, 8),
        inputs: (2, 2),
        own_outputs: (0, 1),
        sources: [1, 1, 0, 0],
        ..SHARED_COINS
    },
    Style {
        name: "expected and shared",
        coins: (6, 16),
        numbers: (4, 10),
        siblings: (1, 4),
        inputs: (1, 3),
        sources: [2, 3, 0, 0],
        ..SHARED_COINS
    },
    Style {
        name: "everything",
        coins: (4, 20),
        numbers: (1, 6),
        siblings: (1, 5),
        inputs: (1, 4),
        own_outputs: (0, 3),
        sources: [6, 4, 5, 1],
        standing: [1, 2],
        generous: 2,
    },
];

impl Style {
    /// The state with this index, the same one at each run.
    pub fn state(&self, seed: u64, index: usize) -> Present {
        let mut chance = Chance::new(seed, index as u64);
        let amounts = [4, 40, 1_000_000_000, AMOUNT_LIMIT / self.generous];
        let mut maker = Maker {
            style: self,
            most: amounts[chance.below(4)],
            chance,
            state: Present::default(),
        };
        maker.state.own = vec![OWN_ADDRESS, OWN_ADDRESS + 1];
        maker.make_entries();
        maker.make_payments();
        maker.place_outputs();
        maker.choose_inputs();
        maker.state
    }
}

struct Maker<'a> {
    style: &'a Style,
    /// The largest amount of a coin.
    most: u64,
    chance: Chance,
    state: Present,
}

impl Maker<'_> {
    fn within(&mut self, range: Range) -> usize {
        self.chance.between(range.0, range.1)
    }

    fn coin(&mut self, address: u32, times: u64) -> Coin {
        Coin { address, amount: self.chance.amount_up_to(self.most * times) }
    }

    fn entry(&mut self, number: u64, index: u16) -> Entry {
        Entry { reference: Reference { number, index }, coin: self.coin(OWN_ADDRESS, 1) }
    }

    fn make_entries(&mut self) {
        for place in 0..self.within(self.style.coins) as u64 {
            let entry = self.entry(COINS + place / 3, (place % 3) as u16);
            self.state.utxo.push(entry);
        }
        for number in 0..self.within(self.style.numbers) as u64 {
            for index in 0..self.within(self.style.siblings) as u16 {
                let entry = self.entry(EXPECTED + number, index);
                self.state.expected.push(entry);
            }
        }
    }

    /// Without inputs yet: those may be outputs of any payment.
    fn make_payments(&mut self) {
        // Most turns are taken with all payments there can be, so half of the states have them.
        let fewest = if self.chance.one_in(2) { PAYMENT_LIMIT } else { FEWEST_PAYMENTS };
        for place in 0..self.within((fewest, PAYMENT_LIMIT)) as u64 {
            let own = self.within(self.style.own_outputs);
            let mut outputs: Vec<Output> = Vec::new();
            for index in 0..own as u16 + 1 {
                let address = if index == 0 { FOREIGN_ADDRESS } else { OWN_ADDRESS + 1 };
                outputs.push(Output { index, coin: self.coin(address, self.style.generous) });
            }
            self.state.pending.push(Transaction {
                number: PAYMENTS + place,
                inputs: Vec::new(),
                outputs,
            });
        }
    }

    /// Some own outputs of payments stand already; an expected reference may also have a payment's
    /// number without being one of its outputs.
    fn place_outputs(&mut self) {
        let [in_utxo, in_expected] = self.style.standing;
        for payment in self.state.pending.clone() {
            for entry in
                made(&payment).into_iter().filter(|entry| entry.coin.address != FOREIGN_ADDRESS)
            {
                let turn = self.chance.below(8);
                if self.state.utxo.len() + self.state.expected.len() + 1 >= ENTRY_LIMIT {
                    return;
                }
                if turn < in_utxo {
                    self.state.utxo.push(entry);
                } else if turn < in_utxo + in_expected {
                    self.state.expected.push(entry);
                }
            }
            if in_expected > 0 && self.chance.one_in(8) {
                let entry = self.entry(payment.number, 7);
                self.state.expected.push(entry);
            }
        }
    }

    fn choose_inputs(&mut self) {
        let references = |entries: &[Entry]| entries.iter().map(|entry| entry.reference).collect();
        let outputs: Vec<Entry> = self.state.pending.iter().flat_map(made).collect();
        let nowhere = (0..8).map(|index| Reference { number: NOWHERE, index }).collect();
        let pools: [Vec<Reference>; 4] = [
            references(&self.state.utxo),
            references(&self.state.expected),
            references(&outputs),
            nowhere,
        ];
        for place in 0..self.state.pending.len() {
            let mut inputs: Vec<Reference> = Vec::new();
            for _ in 0..self.within(self.style.inputs) {
                let pool = self.source();
                inputs.extend(self.chance.pick(&pools[pool]));
            }
            if inputs.is_empty() {
                inputs.push(Reference { number: NOWHERE, index: 9 });
            }
            inputs.sort();
            inputs.dedup();
            self.state.pending[place].inputs = inputs;
        }
    }

    fn source(&mut self) -> usize {
        let sources = self.style.sources;
        let mut turn = self.chance.below(sources.iter().sum());
        let mut source = 0;
        while turn >= sources[source] {
            turn -= sources[source];
            source += 1;
        }
        source
    }
}
