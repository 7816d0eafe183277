//! The wallet and its steps, in the paper's words: sets are sets, and a step either gives the next
//! wallet or leaves the old one as it was.

use crate::chain::*;
use std::collections::{BTreeMap, BTreeSet};
use std::rc::Rc;

pub type Answer = u8;
pub const ACCEPTED: Answer = 0;
pub const BREAKS_LAYOUT: Answer = 1;
pub const NUMBER_TAKEN: Answer = 2;
pub const NOT_AVAILABLE: Answer = 3;
pub const PAYS_TOO_MUCH: Answer = 4;
pub const STANDS_ALREADY: Answer = 5;
pub const CONTRADICTS: Answer = 6;
pub const NO_ROOM: Answer = 7;
pub const NOTHING_BELOW: Answer = 8;
pub const NOT_SOUND: Answer = 9;

pub type Entries = BTreeMap<Reference, Coin>;
pub type Payments = BTreeSet<Rc<Transaction>>;

/// A sum of at most 256 amounts, which fits 64 bits.
pub fn worth(entries: &Entries) -> u64 {
    entries.values().map(|coin| coin.amount).sum()
}

/// A held state.
#[derive(Clone, Debug, Default, PartialEq, Eq)]
pub struct State {
    pub utxo: Entries,
    pub pending: Payments,
    pub expected: Entries,
}

impl State {
    pub fn pending_inputs(&self) -> BTreeSet<Reference> {
        self.pending.iter().flat_map(|payment| payment.inputs.iter().copied()).collect()
    }

    pub fn available(&self) -> Entries {
        let spent = self.pending_inputs();
        let mut available = self.utxo.clone();
        available.retain(|reference, _| !spent.contains(reference));
        available
    }

    pub fn available_balance(&self) -> u64 {
        worth(&self.available())
    }

    /// Available and change in one map, so that a reference in both counts once.
    pub fn total_balance(&self, own: &BTreeSet<u32>) -> u64 {
        let spent = self.pending_inputs();
        let outputs = self.pending.iter().flat_map(|payment| payment.made());
        let change = outputs
            .filter(|(reference, coin)| own.contains(&coin.address) && !spent.contains(reference));
        let mut entries = self.available();
        entries.extend(change);
        worth(&entries)
    }

    /// The entries of both sets; no reference is in both sets of one state.
    pub fn entries(&self) -> impl Iterator<Item = (&Reference, &Coin)> {
        self.utxo.iter().chain(self.expected.iter())
    }

    fn coin(&self, reference: &Reference) -> Option<&Coin> {
        self.utxo.get(reference).or_else(|| self.expected.get(reference))
    }

    fn after_block(&self, own: &BTreeSet<u32>, block: &[Transaction]) -> State {
        let mut next = self.clone();
        let made = block.iter().flat_map(Transaction::made);
        for (reference, coin) in made.filter(|(_, coin)| own.contains(&coin.address)) {
            next.utxo.insert(reference, coin);
            next.expected.remove(&reference);
        }
        let spent: BTreeSet<Reference> =
            block.iter().flat_map(|transaction| transaction.inputs.iter().copied()).collect();
        next.utxo.retain(|reference, _| !spent.contains(reference));
        next.pending.retain(|payment| !payment.inputs.iter().any(|input| spent.contains(input)));
        next
    }

    /// The state that a rollback leaves, from the present state and the one below it.
    fn after_rollback(present: State, below: State) -> State {
        let mut expected = present.expected;
        expected.extend(below.expected);
        expected.extend(present.utxo);
        expected.retain(|reference, _| !below.utxo.contains_key(reference));
        let mut pending = present.pending;
        pending.extend(below.pending);
        State { utxo: below.utxo, pending, expected }
    }
}

/// The answer of a step and the available balance after, less before.
#[derive(Clone, Copy, Debug, PartialEq, Eq)]
pub struct Step {
    pub answer: Answer,
    pub moved: i64,
}

impl Step {
    pub fn refused(answer: Answer) -> Step {
        Step { answer, moved: 0 }
    }
}

#[derive(Clone, Debug, PartialEq, Eq)]
pub struct Wallet {
    pub own: BTreeSet<u32>,
    /// Oldest first; the present state is the last.
    pub states: Vec<State>,
}

impl Wallet {
    pub fn open(own: &[u32]) -> Wallet {
        Wallet { own: own.iter().copied().collect(), states: vec![State::default()] }
    }

    pub fn present(&self) -> &State {
        &self.states[self.states.len() - 1]
    }

    pub fn block(&mut self, block: &[Transaction]) -> Step {
        let refusal = self.block_refusal(block);
        if refusal != ACCEPTED {
            return Step::refused(refusal);
        }
        let next = self.present().after_block(&self.own, block);
        let let_go = self.let_go_by_block();
        if !has_room(&self.states[let_go..], &next) {
            return Step::refused(NO_ROOM);
        }
        let before = self.present().available_balance();
        self.states.drain(..let_go);
        self.states.push(next);
        self.accepted(before)
    }

    pub fn pay(&mut self, payment: &Transaction) -> Step {
        let refusal = self.payment_refusal(payment);
        if refusal != ACCEPTED {
            return Step::refused(refusal);
        }
        let mut next = self.present().clone();
        next.pending.insert(Rc::new(payment.clone()));
        let below = self.states.len() - 1;
        if !has_room(&self.states[..below], &next) {
            return Step::refused(NO_ROOM);
        }
        let before = self.present().available_balance();
        self.states[below] = next;
        self.accepted(before)
    }

    pub fn roll_back(&mut self) -> Step {
        if self.states.len() == 1 {
            return Step::refused(NOTHING_BELOW);
        }
        let before = self.present().available_balance();
        if let (Some(present), Some(below)) = (self.states.pop(), self.states.pop()) {
            self.states.push(State::after_rollback(present, below));
        }
        self.accepted(before)
    }

    /// 128 entries at the amount limit stay below the largest signed 64-bit number.
    fn accepted(&self, before: u64) -> Step {
        let moved = self.present().available_balance() as i64 - before as i64;
        Step { answer: ACCEPTED, moved }
    }

    /// How many of the oldest states the next block lets go: one when eight are held.
    pub fn let_go_by_block(&self) -> usize {
        (self.states.len() + 1).saturating_sub(HELD_LIMIT)
    }

    fn block_refusal(&self, block: &[Transaction]) -> Answer {
        let mut made = block.iter().flat_map(Transaction::made);
        if made.any(|(reference, _)| self.present().utxo.contains_key(&reference)) {
            return STANDS_ALREADY;
        }
        // Every held state is asked, also the one that this very block would let go.
        let contradicted = |state: &State, transaction: &Transaction| {
            let other_coin = transaction.made().any(
                |(reference, coin)| matches!(state.coin(&reference), Some(old) if *old != coin),
            );
            let other_payment = state.pending.iter().any(|payment| {
                payment.number == transaction.number && payment.as_ref() != transaction
            });
            other_coin || other_payment
        };
        let held = &self.states;
        if block.iter().any(|made| held.iter().any(|state| contradicted(state, made))) {
            return CONTRADICTS;
        }
        ACCEPTED
    }

    fn payment_refusal(&self, payment: &Transaction) -> Answer {
        if self.states.iter().any(|state| has_number(state, payment.number)) {
            return NUMBER_TAKEN;
        }
        let available = self.present().available();
        let mut paid_in = 0;
        for input in &payment.inputs {
            match available.get(input) {
                Some(coin) => paid_in += coin.amount,
                None => return NOT_AVAILABLE,
            }
        }
        if payment.paid_out() > paid_in {
            return PAYS_TOO_MUCH;
        }
        ACCEPTED
    }
}

fn has_number(state: &State, number: u64) -> bool {
    state.pending.iter().any(|payment| payment.number == number)
        || state.entries().any(|(reference, _)| reference.number == number)
}

fn has_room(below: &[State], present: &State) -> bool {
    let states = || below.iter().chain(std::iter::once(present));
    references(states()).len() <= ENTRY_LIMIT && payments(states()).len() <= PAYMENT_LIMIT
}

/// The different references over the UTxO and expected sets of some states.
pub fn references<'a>(states: impl Iterator<Item = &'a State>) -> Vec<Reference> {
    let mut all: Vec<Reference> =
        states.flat_map(State::entries).map(|(reference, _)| *reference).collect();
    all.sort_unstable();
    all.dedup();
    all
}

/// The different pending payments over some states.
pub fn payments<'a>(states: impl Iterator<Item = &'a State>) -> Vec<&'a Transaction> {
    let mut all: Vec<&Transaction> =
        states.flat_map(|state| state.pending.iter()).map(|payment| payment.as_ref()).collect();
    all.sort_unstable();
    all.dedup();
    all
}
