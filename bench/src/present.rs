//! A wallet's present state in plain vectors, as every part of the benchmark looks at it.

use crate::chain::*;
use crate::wallet::{Entries, Wallet};
use std::fmt::Write;

#[derive(Clone, Copy, Debug, PartialEq, Eq)]
pub struct Entry {
    pub reference: Reference,
    pub coin: Coin,
}

#[derive(Clone, Debug, Default)]
pub struct Present {
    pub own: Vec<u32>,
    pub utxo: Vec<Entry>,
    pub expected: Vec<Entry>,
    pub pending: Vec<Transaction>,
}

/// The minimum: the least value and the smallest number of payments with which it is reached.
#[derive(Clone, Copy, Debug, PartialEq, Eq)]
pub struct Least {
    pub amount: u64,
    pub payments: u32,
}

impl Present {
    pub fn of(wallet: &Wallet) -> Present {
        let state = wallet.present();
        Present {
            own: wallet.own.iter().copied().collect(),
            utxo: listed(&state.utxo),
            expected: listed(&state.expected),
            pending: state.pending.iter().map(|payment| (**payment).clone()).collect(),
        }
    }

    /// The state to be read by a person: one line an entry or payment.
    pub fn text(&self) -> String {
        let mut text = format!("own {:?}\n", self.own);
        for (name, entries) in [("utxo", &self.utxo), ("expected", &self.expected)] {
            for Entry { reference: Reference { number, index }, coin } in entries {
                let _ = writeln!(text, "{name} {number}.{index}={}:{}", coin.address, coin.amount);
            }
        }
        for payment in &self.pending {
            let _ = write!(text, "pending {}:", payment.number);
            for Reference { number, index } in &payment.inputs {
                let _ = write!(text, " {number}.{index}");
            }
            text.push_str(" ->");
            for Output { index, coin } in &payment.outputs {
                let _ = write!(text, " {index}={}:{}", coin.address, coin.amount);
            }
            text.push('\n');
        }
        text
    }
}

pub fn made(payment: &Transaction) -> Vec<Entry> {
    payment.made().map(|(reference, coin)| Entry { reference, coin }).collect()
}

pub fn stands(entries: &[Entry], reference: Reference) -> bool {
    entries.iter().any(|entry| entry.reference == reference)
}

fn listed(entries: &Entries) -> Vec<Entry> {
    let entries = entries.iter();
    entries.map(|(reference, coin)| Entry { reference: *reference, coin: *coin }).collect()
}
