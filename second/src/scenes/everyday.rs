//! Everyday traffic: income, payments, their confirmation, spends by others, and rollbacks.

use crate::chain::*;
use crate::traffic::{shaped, Traffic};

pub fn income(traffic: &mut Traffic) {
    let count = traffic.chance.between(1, 3);
    let mut block = Vec::new();
    for _ in 0..count {
        let outputs = traffic.chance.between(0, 4);
        let coins = traffic.coins(outputs);
        block.push(traffic.chain_transaction(&[], &coins));
    }
    traffic.block(block);
}

/// Own outputs, eight to a transaction.
pub fn many_entries(traffic: &mut Traffic, count: usize) -> bool {
    let mut block = Vec::new();
    for first in (0..count).step_by(OUTPUT_LIMIT) {
        let coins = traffic.own_coins(OUTPUT_LIMIT.min(count - first));
        block.push(traffic.chain_transaction(&[], &coins));
    }
    traffic.block(block)
}

/// At least so many available entries, if the wallet has room and own addresses.
pub fn stocked(traffic: &mut Traffic, count: usize) -> bool {
    let missing = count.saturating_sub(traffic.available().len());
    if missing > 0 {
        many_entries(traffic, missing);
    }
    traffic.available().len() >= count
}

pub fn plain_payment(traffic: &mut Traffic) {
    if !stocked(traffic, 1) {
        return;
    }
    let spent = traffic.some_available(3);
    let payment = traffic.payment(&spent);
    traffic.pay(&payment);
}

/// Payments of the present or of any held state come into a block, mostly with other traffic.
pub fn confirm(traffic: &mut Traffic) {
    let pending = if traffic.chance.one_in(4) { traffic.held_pending() } else { traffic.pending() };
    let count = traffic.chance.between(1, 4);
    let mut block = traffic.chance.some(&pending, count);
    if traffic.chance.one_in(3) {
        let coins = traffic.coins(2);
        block.push(traffic.chain_transaction(&[], &coins));
    }
    if !block.is_empty() {
        traffic.block(block);
    }
}

/// A foreign transaction spends an input of a pending payment.
pub fn drive_out(traffic: &mut Traffic) {
    let pending = traffic.pending();
    if let Some(payment) = traffic.chance.pick(&pending) {
        let spent = traffic.chance.some(&payment.inputs, 1);
        let count = traffic.chance.below(3);
        let coins = traffic.coins(count);
        let foreign = traffic.chain_transaction(&spent, &coins);
        traffic.block(vec![foreign]);
    }
}

pub fn driven_out_and_back(traffic: &mut Traffic) {
    plain_payment(traffic);
    drive_out(traffic);
    plain_payment(traffic);
    some_rollbacks(traffic);
}

/// A coin made and spent in one block, by a higher or a lower number or by its own maker.
pub fn made_and_spent(traffic: &mut Traffic) {
    let (maker_number, taker_number) = traffic.two_numbers();
    let coins = [traffic.own_coins(1), traffic.coins(1)].concat();
    let outputs = traffic.outputs(&coins);
    let first = Reference { number: maker_number, index: outputs[0].index };
    let foreign = traffic.foreign_input();
    if traffic.chance.one_in(4) {
        let maker = shaped(maker_number, vec![first, foreign], outputs);
        traffic.block(vec![maker]);
        return;
    }
    let maker = shaped(maker_number, vec![foreign], outputs);
    let taken = traffic.coins(1);
    let taker_outputs = traffic.outputs(&taken);
    let taker = shaped(taker_number, vec![first], taker_outputs);
    traffic.block(vec![maker, taker]);
}

pub fn empty_block(traffic: &mut Traffic) {
    traffic.block(Vec::new());
}

pub fn some_rollbacks(traffic: &mut Traffic) {
    for _ in 0..traffic.chance.between(1, 3) {
        if traffic.wallet.states.len() > 1 {
            traffic.back();
        }
    }
}

/// Down to one state, and once more.
pub fn rollbacks_to_the_end(traffic: &mut Traffic) {
    while traffic.back() {}
}
