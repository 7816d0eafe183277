//! A feed while it is told: each event goes into the feed and onto a wallet, which has to accept
//! it.

use crate::chain::*;
use crate::draft::*;
use crate::feed::{FEED_LIMIT, ROW_LIMIT};
use crate::wallet::{Step, Wallet, ACCEPTED};

pub const OWN_ADDRESS: u32 = 10;
const FOREIGN_ADDRESS: u32 = 99;

/// No transaction of these feeds has this number: what it made was never the wallet's.
const FOREIGN: u64 = 1;

pub struct Story {
    pub wallet: Wallet,
    draft: Draft,
    foreign_coins: u16,
}

impl Story {
    pub fn opened() -> Story {
        let own = [OWN_ADDRESS, OWN_ADDRESS + 1];
        Story { wallet: Wallet::open(&own), draft: Draft::opened(&own), foreign_coins: 0 }
    }

    pub fn block(&mut self, block: &[Transaction]) {
        self.draft.push(BLOCK, block_body(block));
        let step = self.wallet.block(block);
        self.accepted(step);
    }

    pub fn pay(&mut self, payment: &Transaction) {
        self.draft.push(PAYMENT, payment_body(payment));
        let step = self.wallet.pay(payment);
        self.accepted(step);
    }

    pub fn pay_all(&mut self, payments: &[Transaction]) {
        payments.iter().for_each(|payment| self.pay(payment));
    }

    pub fn back(&mut self) {
        self.draft.push(ROLLBACK, Vec::new());
        let step = self.wallet.roll_back();
        self.accepted(step);
    }

    fn accepted(&self, step: Step) {
        assert_eq!(step.answer, ACCEPTED, "row {} of a fixed feed", self.rows());
    }

    pub fn rows(&self) -> usize {
        self.draft.rows.len()
    }

    pub fn pending(&self) -> usize {
        self.wallet.present().pending.len()
    }

    pub fn bytes(&self) -> Vec<u8> {
        let feed = self.draft.bytes();
        assert!(self.rows() <= ROW_LIMIT && feed.len() <= FEED_LIMIT, "a fixed feed is too long");
        feed
    }

    /// A transaction from elsewhere that pays these amounts to the wallet.
    pub fn received(&mut self, number: u64, amounts: &[u64]) -> Transaction {
        self.foreign_coins += 1;
        let input = Reference { number: FOREIGN, index: self.foreign_coins };
        transaction(number, &[input], &[], amounts)
    }
}

pub fn at(number: u64, index: u16) -> Reference {
    Reference { number, index }
}

/// Outputs to others first, then those to the wallet.
pub fn transaction(number: u64, inputs: &[Reference], others: &[u64], own: &[u64]) -> Transaction {
    let others = others.iter().map(|amount| (FOREIGN_ADDRESS, *amount));
    let outputs = others.chain(own.iter().map(|amount| (OWN_ADDRESS, *amount)));
    let outputs = (0..).zip(outputs).map(|(index, (address, amount))| {
        let coin = Coin { address, amount };
        Output { index, coin }
    });
    let outputs = outputs.collect();
    let mut inputs = inputs.to_vec();
    inputs.sort();
    Transaction { number, inputs, outputs }
}
