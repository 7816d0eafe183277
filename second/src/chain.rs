//! The chain's words and the paper's sizes.

pub const AMOUNT_LIMIT: u64 = 45_000_000_000_000_000;
pub const OWN_LIMIT: usize = 32;
pub const INPUT_LIMIT: usize = 8;
pub const OUTPUT_LIMIT: usize = 8;
pub const BLOCK_LIMIT: usize = 16;
pub const HELD_LIMIT: usize = 8;
pub const PAYMENT_LIMIT: usize = 16;
pub const ENTRY_LIMIT: usize = 128;

#[derive(Clone, Copy, Debug, PartialEq, Eq, PartialOrd, Ord)]
pub struct Reference {
    pub number: u64,
    pub index: u16,
}

/// What stands at a reference.
#[derive(Clone, Copy, Debug, PartialEq, Eq, PartialOrd, Ord)]
pub struct Coin {
    pub address: u32,
    pub amount: u64,
}

#[derive(Clone, Copy, Debug, PartialEq, Eq, PartialOrd, Ord)]
pub struct Output {
    pub index: u16,
    pub coin: Coin,
}

/// The number comes first, so that ordered sets of transactions are ordered by number.
#[derive(Clone, Debug, PartialEq, Eq, PartialOrd, Ord)]
pub struct Transaction {
    pub number: u64,
    pub inputs: Vec<Reference>,
    pub outputs: Vec<Output>,
}

impl Transaction {
    /// The entries that this transaction makes, own or not.
    pub fn made(&self) -> impl Iterator<Item = (Reference, Coin)> + '_ {
        let number = self.number;
        self.outputs.iter().map(move |output| {
            let index = output.index;
            (Reference { number, index }, output.coin)
        })
    }

    /// Eight outputs at the amount limit fit 64 bits many times over.
    pub fn paid_out(&self) -> u64 {
        self.outputs.iter().map(|output| output.coin.amount).sum()
    }
}
