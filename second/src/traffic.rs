//! A feed's traffic while it is made up: a draft and, beside it, the wallet that it leads to, so
//! that the next event can be chosen to mean something.

use crate::chain::*;
use crate::chance::Chance;
use crate::draft::*;
use crate::feed::{FEED_LIMIT, ROW_LIMIT, ROW_SIZE};
use crate::wallet::{payments, references, Wallet, ACCEPTED};

pub struct Traffic<'a> {
    pub chance: &'a mut Chance,
    pub wallet: Wallet,
    pub draft: Draft,
    own: Vec<u32>,
    size: usize,
    row_limit: usize,
    next_number: u64,
}

impl<'a> Traffic<'a> {
    pub fn new(chance: &'a mut Chance, row_limit: usize) -> Traffic<'a> {
        let own = own_addresses(chance);
        let starts = [0, 1, 100, 1 << 32, 1 << 63, u64::MAX - 100_000];
        let next_number = starts[chance.below(starts.len())];
        let draft = Draft::opened(&own);
        let size = draft.size();
        let wallet = Wallet::open(&own);
        let row_limit = row_limit.min(ROW_LIMIT);
        Traffic { chance, wallet, draft, own, size, row_limit, next_number }
    }

    pub fn rows_left(&self) -> usize {
        self.row_limit - self.draft.rows.len()
    }

    pub fn bytes_left(&self) -> usize {
        FEED_LIMIT - self.size
    }

    /// False if the feed has no place for another row.
    pub fn push(&mut self, kind: u8, body: Vec<u8>) -> bool {
        let grown = self.size + ROW_SIZE + body.len();
        if self.rows_left() == 0 || grown > FEED_LIMIT {
            return false;
        }
        self.size = grown;
        self.draft.push(kind, body);
        true
    }

    /// The three events: true if there was a place and the wallet accepted.
    pub fn block(&mut self, mut block: Vec<Transaction>) -> bool {
        block.sort();
        block.dedup_by_key(|transaction| transaction.number);
        block.truncate(BLOCK_LIMIT);
        self.push(BLOCK, block_body(&block)) && self.wallet.block(&block).answer == ACCEPTED
    }

    pub fn pay(&mut self, payment: &Transaction) -> bool {
        // A scene that found nothing to spend stays out of the feed: faults are put in elsewhere.
        !payment.inputs.is_empty()
            && self.push(PAYMENT, payment_body(payment))
            && self.wallet.pay(payment).answer == ACCEPTED
    }

    pub fn back(&mut self) -> bool {
        self.push(ROLLBACK, Vec::new()) && self.wallet.roll_back().answer == ACCEPTED
    }

    pub fn fresh_number(&mut self) -> u64 {
        if self.chance.one_in(300) {
            return u64::MAX;
        }
        let number = self.next_number;
        self.next_number += 1 + self.chance.below(3) as u64;
        number
    }

    /// Two fresh numbers in either order.
    pub fn two_numbers(&mut self) -> (u64, u64) {
        let (one, other) = (self.fresh_number(), self.fresh_number());
        if self.chance.one_in(2) {
            (one, other)
        } else {
            (other, one)
        }
    }

    pub fn foreign_input(&mut self) -> Reference {
        let number = if self.chance.one_in(2) { self.chance.next() } else { self.next_number / 2 };
        Reference { number, index: self.chance.next() as u16 }
    }

    pub fn own_address(&mut self) -> u32 {
        match self.chance.pick(&self.own) {
            Some(address) => address,
            None => self.foreign_address(),
        }
    }

    pub fn foreign_address(&mut self) -> u32 {
        loop {
            let address = self.chance.next() as u32 >> self.chance.below(32);
            if !self.own.contains(&address) {
                return address;
            }
        }
    }

    pub fn address(&mut self) -> u32 {
        if self.chance.one_in(3) {
            self.foreign_address()
        } else {
            self.own_address()
        }
    }

    pub fn amount(&mut self) -> u64 {
        match self.chance.below(40) {
            0..=2 => 0,
            3 => AMOUNT_LIMIT,
            4 => self.chance.amount_up_to(AMOUNT_LIMIT),
            5..=12 => self.chance.amount_up_to(5_000_000_000),
            _ => self.chance.amount_up_to(100),
        }
    }

    /// Mostly 0, 1, 2 and so on; at times with gaps, up to the last index.
    pub fn indices(&mut self, count: usize) -> Vec<u16> {
        if !self.chance.one_in(8) {
            return (0..count as u16).collect();
        }
        let last = u16::MAX - (self.chance.below(4) as u16);
        let mut indices: Vec<u16> = (0..count).map(|_| self.chance.next() as u16).collect();
        indices.extend([last, 0]);
        indices.sort_unstable();
        indices.dedup();
        indices.split_off(indices.len().saturating_sub(count))
    }

    pub fn outputs(&mut self, coins: &[Coin]) -> Vec<Output> {
        let indices = self.indices(coins.len());
        let pairs = indices.into_iter().zip(coins);
        pairs.map(|(index, coin)| Output { index, coin: *coin }).collect()
    }

    pub fn coins(&mut self, count: usize) -> Vec<Coin> {
        (0..count).map(|_| Coin { address: self.address(), amount: self.amount() }).collect()
    }

    pub fn own_coins(&mut self, count: usize) -> Vec<Coin> {
        (0..count).map(|_| Coin { address: self.own_address(), amount: self.amount() }).collect()
    }

    /// A transaction of the chain that makes these coins out of foreign inputs and the given ones.
    pub fn chain_transaction(&mut self, spent: &[Reference], coins: &[Coin]) -> Transaction {
        let mut inputs = spent.to_vec();
        if inputs.is_empty() || self.chance.one_in(4) {
            inputs.push(self.foreign_input());
        }
        let (number, outputs) = (self.fresh_number(), self.outputs(coins));
        shaped(number, inputs, outputs)
    }

    /// A payment of these available entries, mostly with change; at times it pays out everything.
    pub fn payment(&mut self, spent: &[Reference]) -> Transaction {
        let paid_in = self.paid_in(spent);
        let count = [0, 1, 1, 2, 2, 2, 3, 4][self.chance.below(8)];
        let mut coins = Vec::new();
        let mut rest = paid_in;
        for at in 0..count {
            let everything = at + 1 == count && self.chance.one_in(3);
            let most = rest.min(AMOUNT_LIMIT);
            let amount = if everything { most } else { self.chance.amount_up_to(most) };
            rest -= amount;
            coins.push(Coin { address: self.address(), amount });
        }
        let (number, outputs) = (self.fresh_number(), self.outputs(&coins));
        shaped(number, spent.to_vec(), outputs)
    }

    pub fn paid_in(&self, spent: &[Reference]) -> u64 {
        let utxo = &self.wallet.present().utxo;
        spent.iter().filter_map(|input| utxo.get(input)).map(|coin| coin.amount).sum()
    }

    pub fn available(&self) -> Vec<Reference> {
        self.wallet.present().available().keys().copied().collect()
    }

    /// Up to this many available entries.
    pub fn some_available(&mut self, most: usize) -> Vec<Reference> {
        let available = self.available();
        let count = self.chance.between(1, most);
        self.chance.some(&available, count)
    }

    /// Pending payments of the present state.
    pub fn pending(&self) -> Vec<Transaction> {
        self.wallet.present().pending.iter().map(|payment| payment.as_ref().clone()).collect()
    }

    /// Pending payments of any held state.
    pub fn held_pending(&self) -> Vec<Transaction> {
        payments(self.wallet.states.iter()).into_iter().cloned().collect()
    }

    /// Entries of held states that do not stand in the present UTxO.
    pub fn gone_entries(&self) -> Vec<(Reference, Coin)> {
        let present = &self.wallet.present().utxo;
        let entries = self.wallet.states.iter().flat_map(|state| state.entries());
        let gone = entries.filter(|(reference, _)| !present.contains_key(reference));
        gone.map(|(reference, coin)| (*reference, *coin)).collect()
    }

    /// How many references a block may still add.
    pub fn entry_room(&self) -> usize {
        let let_go = self.wallet.let_go_by_block();
        ENTRY_LIMIT - references(self.wallet.states[let_go..].iter()).len()
    }
}

/// A transaction in the order that the feed asks for.
pub fn shaped(number: u64, mut inputs: Vec<Reference>, outputs: Vec<Output>) -> Transaction {
    inputs.sort_unstable();
    inputs.dedup();
    inputs.truncate(INPUT_LIMIT);
    Transaction { number, inputs, outputs }
}

fn own_addresses(chance: &mut Chance) -> Vec<u32> {
    let count = match chance.below(30) {
        0 => 0,
        1..=3 => 1,
        4 => OWN_LIMIT,
        _ => chance.between(2, 5),
    };
    let mut own: Vec<u32> = (0..count).map(|_| chance.next() as u32 >> chance.below(28)).collect();
    if count > 1 && chance.one_in(8) {
        own[0] = 0;
        own[1] = u32::MAX;
    }
    own.sort_unstable();
    own.dedup();
    own
}
