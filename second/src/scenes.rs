//! Scenes of a feed: some events that belong together. Each works on whatever wallet it finds and
//! does nothing if the wallet has no use for it.

mod everyday;
mod forks;
mod limits;
mod refused;
mod tangles;

use crate::traffic::Traffic;
use everyday::*;
use forks::*;
use limits::*;
use refused::*;
use tangles::*;

pub type Scene = fn(&mut Traffic);

/// Scenes that each feed gets one of, in turn, so that no situation is left to chance; with the
/// rows that the feed has at least.
pub const THEMES: [(usize, Scene); 15] = [
    (12, shared_input),
    (16, chain_of_payments),
    (40, sixteen_payments),
    (32, full_references),
    (12, made_again),
    (20, states_let_go),
    (8, amounts_at_limit),
    (12, fork),
    (12, expected_made),
    (14, shared_input_twice),
    (14, driven_out_and_back),
    (8, made_and_spent),
    (16, chain_in_the_air),
    (36, crowded_rollbacks),
    (32, oldest_of_eight),
];

/// Scenes that fill a feed, with their weights.
const MIX: [(usize, Scene); 23] = [
    (14, income),
    (18, plain_payment),
    (12, confirm),
    (5, drive_out),
    (5, made_and_spent),
    (3, empty_block),
    (8, some_rollbacks),
    (4, fork),
    (4, expected_made),
    (1, expected_spent),
    (3, made_again),
    (3, shared_input),
    (3, chain_of_payments),
    (3, driven_out_and_back),
    (2, number_taken),
    (3, not_available),
    (3, pays_too_much),
    (3, stands_already),
    (2, other_coin),
    (2, other_payment),
    (1, rollbacks_to_the_end),
    (2, amounts_at_limit),
    (1, states_let_go),
];

pub fn mixed_scene(traffic: &mut Traffic) {
    let sum = MIX.iter().map(|(weight, _)| weight).sum();
    let mut left = traffic.chance.below(sum);
    for (weight, scene) in MIX {
        if left < weight {
            return scene(traffic);
        }
        left -= weight;
    }
}
