//! A model of the tables from which the proved program values a choice of payments. Words are marks
//! over the pending payments.

use crate::chain::*;
use crate::present::*;

#[derive(Clone, Copy, Debug)]
pub struct Row {
    pub takes: u64,
    pub adds: u64,
    pub clash: u32,
    pub need: u32,
}

impl Row {
    /// What a choice of the row can take off the value.
    pub fn loss(&self) -> u64 {
        self.takes.saturating_sub(self.adds)
    }
}

#[derive(Clone, Copy, Debug)]
pub struct Bring {
    pub amount: u64,
    pub hard: u32,
    pub soft: u32,
    pub owner: u32,
    pub maker: u32,
}

impl Bring {
    fn is_single(&self) -> bool {
        self.hard.count_ones() == 1 && self.soft == 0 && self.owner == 0 && self.maker == 0
    }

    pub fn is_brought(&self, word: u32) -> bool {
        self.is_sure(word, word)
    }

    /// Brought by every choice that has the word's marks and none outside the open word.
    pub fn is_sure(&self, word: u32, open: u32) -> bool {
        let soft = self.soft & word != 0 && self.owner & open == 0;
        (self.hard & word != 0 || soft) && self.maker & open == 0
    }
}

#[derive(Clone, Debug)]
pub struct Tables {
    pub base: u64,
    pub rows: Vec<Row>,
    pub brings: Vec<Bring>,
}

impl Tables {
    pub fn of(state: &Present) -> Tables {
        let outputs: Vec<Entry> = state.pending.iter().flat_map(made).collect();
        Tables {
            base: state.utxo.iter().map(|entry| entry.coin.amount).sum(),
            rows: state.pending.iter().map(|payment| row(state, &outputs, payment)).collect(),
            brings: state.expected.iter().map(|entry| bring(state, &outputs, entry)).collect(),
        }
    }

    /// An expected entry that exactly one payment can bring goes into what that payment adds.
    pub fn settled(mut self) -> Tables {
        for bring in self.brings.iter().filter(|bring| bring.is_single()) {
            self.rows[bring.hard.trailing_zeros() as usize].adds += bring.amount;
        }
        self.brings.retain(|bring| !bring.is_single());
        self
    }
}

fn word(pending: &[Transaction], marked: impl Fn(&Transaction) -> bool) -> u32 {
    let marks = pending.iter().enumerate().filter(|(_, payment)| marked(payment));
    marks.fold(0, |word, (at, _)| word | 1 << at)
}

fn is_own(state: &Present, entry: &Entry) -> bool {
    state.own.contains(&entry.coin.address)
}

fn row(state: &Present, outputs: &[Entry], payment: &Transaction) -> Row {
    let held = |input: Reference| stands(&state.utxo, input) || stands(&state.expected, input);
    let lost = payment.inputs.iter().any(|input| !held(*input) && !stands(outputs, *input));
    let added = made(payment);
    let added =
        added.iter().filter(|entry| is_own(state, entry) && !stands(&state.utxo, entry.reference));
    Row {
        takes: payment.inputs.iter().map(|input| amount_at(state, outputs, *input)).sum(),
        adds: added.map(|entry| entry.coin.amount).sum(),
        clash: word(&state.pending, |other| {
            if other.number == payment.number {
                return lost;
            }
            payment.inputs.iter().any(|input| other.inputs.contains(input))
        }),
        need: word(&state.pending, |other| {
            let made = made(other);
            payment.inputs.iter().any(|input| !held(*input) && stands(&made, *input))
        }),
    }
}

/// What an input is worth: in the UTxO, in expected or among the own outputs of pending payments.
fn amount_at(state: &Present, outputs: &[Entry], input: Reference) -> u64 {
    let own_outputs = outputs.iter().filter(|entry| is_own(state, entry));
    let mut known = state.utxo.iter().chain(&state.expected).chain(own_outputs);
    known.find(|entry| entry.reference == input).map_or(0, |entry| entry.coin.amount)
}

fn bring(state: &Present, outputs: &[Entry], entry: &Entry) -> Bring {
    let number = entry.reference.number;
    let forces = |payment: &Transaction, pending_makes_it: bool| {
        payment.inputs.iter().any(|input| {
            input.number == number
                && !stands(&state.utxo, *input)
                && stands(outputs, *input) == pending_makes_it
        })
    };
    Bring {
        amount: entry.coin.amount,
        hard: word(&state.pending, |payment| forces(payment, false)),
        soft: word(&state.pending, |payment| forces(payment, true)),
        owner: word(&state.pending, |payment| payment.number == number),
        maker: word(&state.pending, |payment| {
            let made = made(payment);
            made.iter().any(|made| is_own(state, made) && made.reference == entry.reference)
        }),
    }
}
