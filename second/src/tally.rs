//! What a comparison has met: each answer by kind of event, and the situations that matter.

use crate::chain::*;
use crate::events::Event;
use crate::feed::{Body, Kind, FEED_LIMIT, ROW_LIMIT};
use crate::wallet::*;
use std::collections::{BTreeMap, BTreeSet};

const ANSWERS: usize = 9;
const KINDS: [Kind; 4] = [Kind::Own, Kind::Block, Kind::Payment, Kind::Rollback];

/// In the order in which they are printed; all of them have to occur.
const SITUATIONS: [&str; 39] = [
    "well formed feed",
    "refused feed",
    "body fault",
    "feed of 65,536 bytes",
    "feed one byte over",
    "256 rows",
    "empty block",
    "coin made and spent in one block",
    "transaction that spends its own or a higher number's output",
    "pending payment confirmed",
    "pending payment driven out by a foreign spend",
    "payment back after a rollback",
    "two pending payments with a shared input",
    "payment on an expected or pending output in the minimum",
    "chosen payment's output that is expected too",
    "reference made again",
    "expected reference made",
    "expected reference made and spent in one block",
    "expected reference spent, not made",
    "expected reference in the lower UTxO at a rollback",
    "oldest of eight let go",
    "2 by the oldest of eight alone",
    "6 by the oldest of eight alone",
    "room only because the oldest of eight goes",
    "sixteen payments",
    "128 references",
    "amount at the limit",
    "amount of 0",
    "5 though 6 applies",
    "6 by an output",
    "6 by a payment's number",
    "minimum below total",
    "minimum below UTxO worth",
    "minimum above available",
    "minimum with count above 0",
    "minimum with count 0 though payments pend",
    "negative movement",
    "zero movement",
    "positive movement",
];

#[derive(Default)]
pub struct Tally {
    answers: [[u64; KINDS.len()]; ANSWERS],
    situations: BTreeMap<&'static str, u64>,
}

impl Tally {
    fn met_if(&mut self, situation: &'static str, met: bool) {
        if met {
            *self.situations.entry(situation).or_insert(0) += 1;
        }
    }

    pub fn feed(&mut self, feed: &[u8], rows: usize) {
        self.met_if("well formed feed", rows > 0);
        self.met_if("refused feed", rows == 0);
        self.met_if("feed of 65,536 bytes", rows > 0 && feed.len() == FEED_LIMIT);
        self.met_if("feed one byte over", feed.len() == FEED_LIMIT + 1);
        self.met_if("256 rows", rows == ROW_LIMIT);
    }

    /// An event, with the wallet before and after it.
    pub fn event(&mut self, event: &Event, before: &Wallet, after: &Wallet) {
        if let Some(kind) = KINDS.iter().position(|kind| *kind == event.kind) {
            self.answers[usize::from(event.answer)][kind] += 1;
        }
        self.met_if("body fault", event.body.is_err());
        if let (Ok(Body::Block(block)), ACCEPTED) = (&event.body, event.answer) {
            self.block(block, before, after);
        }
        if let Ok(Body::Block(block)) = &event.body {
            self.contradictions(event.answer, block, before);
        }
        self.oldest(event, before);
        if (event.kind, event.answer) == (Kind::Rollback, ACCEPTED) {
            self.rollback(before, after);
        }
        self.balances(event, after);
        self.sizes(after);
        if event.answer == ACCEPTED {
            self.met_if("negative movement", event.moved < 0);
            self.met_if("zero movement", event.moved == 0);
            self.met_if("positive movement", event.moved > 0);
        }
    }

    fn block(&mut self, block: &[Transaction], before: &Wallet, after: &Wallet) {
        let spent: BTreeSet<Reference> =
            block.iter().flat_map(|transaction| transaction.inputs.iter().copied()).collect();
        let own_made = block.iter().flat_map(Transaction::made);
        let own_made = own_made.filter(|(_, coin)| after.own.contains(&coin.address));
        let made: BTreeSet<Reference> = own_made.map(|(reference, _)| reference).collect();
        self.met_if("empty block", block.is_empty());
        self.met_if("coin made and spent in one block", !made.is_disjoint(&spent));
        let backwards = block.iter().any(|transaction| {
            let mut inputs = transaction.inputs.iter();
            inputs.any(|input| made.contains(input) && input.number >= transaction.number)
        });
        self.met_if("transaction that spends its own or a higher number's output", backwards);
        let stood = |new: &Reference| before.states.iter().any(|old| old.utxo.contains_key(new));
        self.met_if("reference made again", made.iter().any(stood));
        for expected in before.present().expected.keys() {
            let (made, spent) = (made.contains(expected), spent.contains(expected));
            self.met_if("expected reference made", made);
            self.met_if("expected reference made and spent in one block", made && spent);
            self.met_if("expected reference spent, not made", spent && !made);
        }
        self.payments_left(block, before, after);
        self.met_if("oldest of eight let go", before.states.len() == HELD_LIMIT);
        let with_oldest = before.states.iter().chain(after.states.last());
        let room = references(with_oldest).len() > ENTRY_LIMIT;
        self.met_if("room only because the oldest of eight goes", room);
    }

    fn payments_left(&mut self, block: &[Transaction], before: &Wallet, after: &Wallet) {
        let left = || before.present().pending.difference(&after.present().pending);
        let in_block = |old: &Transaction| block.iter().any(|new| new.number == old.number);
        self.met_if("pending payment confirmed", left().any(|payment| in_block(payment)));
        let driven_out = left().any(|payment| !in_block(payment));
        self.met_if("pending payment driven out by a foreign spend", driven_out);
    }

    /// Refusals that would not have been given had the oldest of eight states gone before.
    fn oldest(&mut self, event: &Event, before: &Wallet) {
        if before.states.len() < HELD_LIMIT {
            return;
        }
        let mut later = before.clone();
        later.states.remove(0);
        match (&event.body, event.answer) {
            (Ok(Body::Payment(payment)), NUMBER_TAKEN) => {
                let alone = later.pay(payment).answer != NUMBER_TAKEN;
                self.met_if("2 by the oldest of eight alone", alone);
            }
            (Ok(Body::Block(block)), CONTRADICTS) => {
                let alone = later.block(block).answer != CONTRADICTS;
                self.met_if("6 by the oldest of eight alone", alone);
            }
            _ => {}
        }
    }

    fn contradictions(&mut self, answer: Answer, block: &[Transaction], before: &Wallet) {
        let pending = payments(before.states.iter());
        let other_payment = block
            .iter()
            .any(|new| pending.iter().any(|old| old.number == new.number && *old != new));
        let other_coin = block.iter().flat_map(Transaction::made).any(|(reference, coin)| {
            let mut entries = before.states.iter().flat_map(State::entries);
            entries.any(|(old, stands)| *old == reference && *stands != coin)
        });
        self.met_if(
            "5 though 6 applies",
            answer == STANDS_ALREADY && (other_coin || other_payment),
        );
        self.met_if("6 by an output", answer == CONTRADICTS && !other_payment);
        self.met_if("6 by a payment's number", answer == CONTRADICTS && !other_coin);
    }

    fn rollback(&mut self, before: &Wallet, after: &Wallet) {
        let (present, below) = (before.present(), &before.states[before.states.len() - 2]);
        let back = after.present().pending.difference(&present.pending).next().is_some();
        self.met_if("payment back after a rollback", back);
        let lower = present.expected.keys().any(|reference| below.utxo.contains_key(reference));
        self.met_if("expected reference in the lower UTxO at a rollback", lower);
    }

    fn balances(&mut self, event: &Event, after: &Wallet) {
        let state = after.present();
        let least = &event.minimum;
        self.met_if("minimum below total", least.value < event.total);
        self.met_if("minimum below UTxO worth", least.value < worth(&state.utxo));
        self.met_if("minimum above available", least.value > event.available);
        self.met_if("minimum with count above 0", least.count > 0);
        let none = least.count == 0 && !state.pending.is_empty();
        self.met_if("minimum with count 0 though payments pend", none);
        let chosen: Vec<&Transaction> = (0..)
            .zip(&state.pending)
            .filter(|(at, _)| least.choice >> at & 1 == 1)
            .map(|(_, payment)| payment.as_ref())
            .collect();
        let mut inputs = chosen.iter().flat_map(|payment| payment.inputs.iter());
        let stands_on = inputs.any(|input| !state.utxo.contains_key(input));
        self.met_if("payment on an expected or pending output in the minimum", stands_on);
        let mut outputs = chosen.iter().flat_map(|payment| payment.made());
        let twice = outputs.any(|(reference, _)| state.expected.contains_key(&reference));
        self.met_if("chosen payment's output that is expected too", twice);
    }

    fn sizes(&mut self, after: &Wallet) {
        let state = after.present();
        let inputs: usize = state.pending.iter().map(|payment| payment.inputs.len()).sum();
        let shared = state.pending_inputs().len() < inputs;
        self.met_if("two pending payments with a shared input", shared);
        self.met_if("sixteen payments", payments(after.states.iter()).len() == PAYMENT_LIMIT);
        self.met_if("128 references", references(after.states.iter()).len() == ENTRY_LIMIT);
        let has_amount = |amount| state.utxo.values().any(|coin| coin.amount == amount);
        self.met_if("amount at the limit", has_amount(AMOUNT_LIMIT));
        self.met_if("amount of 0", has_amount(0));
    }

    pub fn add(&mut self, other: &Tally) {
        for (sums, counts) in self.answers.iter_mut().zip(&other.answers) {
            sums.iter_mut().zip(counts).for_each(|(sum, count)| *sum += count);
        }
        for (situation, count) in &other.situations {
            *self.situations.entry(*situation).or_insert(0) += count;
        }
    }

    pub fn print(&self) {
        say!("answer        own      block        pay       back");
        for (answer, counts) in self.answers.iter().enumerate() {
            let columns: String = counts.iter().map(|count| format!(" {count:>10}")).collect();
            say!("{answer:<6}{columns}");
        }
        for situation in SITUATIONS {
            say!("{:>9} {situation}", self.situations.get(situation).unwrap_or(&0));
        }
    }

    /// Answers and situations that never occurred.
    pub fn missing(&self) -> Vec<String> {
        let unseen = |answer: &usize| self.answers[*answer].iter().sum::<u64>() == 0;
        let answers = (0..ANSWERS).filter(unseen).map(|answer| format!("answer {answer}"));
        let situations = SITUATIONS.iter().filter(|name| !self.situations.contains_key(**name));
        answers.chain(situations.map(|name| name.to_string())).collect()
    }
}
