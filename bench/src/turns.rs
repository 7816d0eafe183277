//! The turns of the walk, counted by its model over the fixed wallets and random tangled states.
//! What the model finds is held to the definition.

use crate::minimum::minimum;
use crate::plain;
use crate::present::*;
use crate::tangles::{Style, STYLES};
use crate::walk;
use crate::wallet::{Entries, State};
use crate::wallets::{self, KINDS, SIZES};
use std::rc::Rc;

pub const LIMIT: u64 = 20_000;
const SEED: u64 = 2_026;
const STATES_PER_STYLE: usize = 1_500;
/// Up to this many payments the plain rendering judges the model, above it the second program.
const PLAIN_LIMIT: usize = 10;

#[derive(Default)]
struct Count {
    states: u64,
    turns: u64,
    largest: u64,
    /// The state with the most turns, and how it is called.
    worst: Option<(String, Present)>,
    compared_with_plain: u64,
    /// How the states are called on which the model errs.
    wrong: Vec<String>,
}

impl Count {
    fn add(&mut self, name: String, state: Present) {
        let found = walk::search(&state);
        let with_plain = state.pending.len() <= PLAIN_LIMIT;
        let least = if with_plain { plain::minimum(&state) } else { by_second(&state) };
        self.compared_with_plain += u64::from(with_plain);
        if found.least != least {
            self.wrong.push(format!("{name}: {:?} by the model, but {least:?}", found.least));
        }
        self.states += 1;
        self.turns += found.turns;
        if self.worst.is_none() || found.turns > self.largest {
            self.largest = found.turns;
            self.worst = Some((name, state));
        }
    }

    fn line(&self, name: &str) {
        let mean = self.turns / self.states.max(1);
        say!("{name:<28} {:>8} {:>10} {mean:>10}", self.states, self.largest);
    }
}

fn by_second(state: &Present) -> Least {
    let map = |entries: &[Entry]| -> Entries {
        entries.iter().map(|entry| (entry.reference, entry.coin)).collect()
    };
    let pending = state.pending.iter().cloned().map(Rc::new).collect();
    let held = State { utxo: map(&state.utxo), pending, expected: map(&state.expected) };
    let found = minimum(&held, &state.own.iter().copied().collect());
    Least { amount: found.value, payments: found.count }
}

/// Prints the counts; gives what is missed.
pub fn run() -> Vec<String> {
    say!("Turns of the walk, by a model of it");
    say!("{:<28} {:>8} {:>10} {:>10}", "wallets", "number", "most", "mean");
    let mut counts: Vec<Count> = Vec::new();
    for kind in KINDS {
        let mut count = Count::default();
        for size in SIZES {
            let state = Present::of(&wallets::told(kind, size).wallet);
            count.add(format!("fixed wallet, {} {size}", kind.name()), state);
        }
        count.line(&format!("fixed, {}", kind.name()));
        counts.push(count);
    }
    for style in &STYLES {
        let count = random(style);
        count.line(&format!("random, {}", style.name));
        counts.push(count);
    }
    summed_up(&counts)
}

fn random(style: &Style) -> Count {
    let mut count = Count::default();
    for index in 0..STATES_PER_STYLE {
        let name = format!("random state {index}, {}", style.name);
        count.add(name, style.state(SEED, index));
    }
    count
}

fn summed_up(counts: &[Count]) -> Vec<String> {
    let states: u64 = counts.iter().map(|count| count.states).sum();
    let turns: u64 = counts.iter().map(|count| count.turns).sum();
    let plain: u64 = counts.iter().map(|count| count.compared_with_plain).sum();
    let largest = counts.iter().map(|count| count.largest).max().unwrap_or(0);
    say!("{:<28} {states:>8} {largest:>10} {:>10}", "all", turns / states.max(1));
    say!(
        "The minimum was compared with the plain rendering on {plain} of them, with the second \
         program on the others."
    );
    let mut missed = Vec::new();
    for count in counts {
        missed.extend(count.wrong.iter().cloned());
        if let Some((name, state)) = count.worst.as_ref().filter(|_| count.largest >= LIMIT) {
            say!("\n{} turns: {name}\n{}", count.largest, state.text());
            missed.push(format!("{} turns, not under {LIMIT}: {name}", count.largest));
        }
    }
    say!("");
    missed
}
