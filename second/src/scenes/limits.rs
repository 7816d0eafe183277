//! The paper's sizes, reached and passed.

use super::everyday::{
    confirm, empty_block, income, made_and_spent, many_entries, plain_payment, some_rollbacks,
    stocked,
};
use super::refused::other_amount;
use super::tangles::payment_with_change;
use crate::chain::*;
use crate::traffic::{shaped, Traffic};

/// Sixteen payments, and one over; then some of them come into blocks.
pub fn sixteen_payments(traffic: &mut Traffic) {
    if traffic.rows_left() < 20 || !stocked(traffic, PAYMENT_LIMIT + 1) {
        return;
    }
    let room = PAYMENT_LIMIT - traffic.held_pending().len();
    let over = traffic.chance.between(1, 2);
    for _ in 0..room + over {
        let spent = traffic.some_available(1);
        let payment = if traffic.chance.one_in(2) {
            payment_with_change(traffic, &spent)
        } else {
            traffic.payment(&spent)
        };
        traffic.pay(&payment);
    }
    let pending = traffic.pending();
    let count = traffic.chance.between(8, BLOCK_LIMIT);
    let confirmed = traffic.chance.some(&pending, count);
    traffic.block(confirmed);
    plain_payment(traffic);
    if traffic.chance.one_in(3) {
        traffic.back();
    }
    // The payments stay in the states below; when those go, their room is free.
    states_let_go(traffic);
    plain_payment(traffic);
}

/// All 128 references, and one over; then a block that spends some, which frees no room at once.
pub fn full_references(traffic: &mut Traffic) {
    let room = traffic.entry_room();
    if room < ENTRY_LIMIT && traffic.chance.one_in(2) {
        many_entries(traffic, room + 1);
    }
    let part = room / 2;
    if traffic.chance.one_in(2) {
        many_entries(traffic, part);
    }
    let room = traffic.entry_room();
    if !many_entries(traffic, room) {
        return;
    }
    many_entries(traffic, 1);
    made_and_spent(traffic);
    let spent = traffic.some_available(8);
    let spender = traffic.chain_transaction(&spent, &[]);
    traffic.block(vec![spender]);
    let over = traffic.chance.between(1, 8);
    many_entries(traffic, over);
    plain_payment(traffic);
    states_let_go(traffic);
    many_entries(traffic, over);
    some_rollbacks(traffic);
}

/// Eight to ten blocks, so that the oldest states go.
pub fn states_let_go(traffic: &mut Traffic) {
    for _ in 0..traffic.chance.between(8, 10) {
        match traffic.chance.below(4) {
            0 => income(traffic),
            1 => confirm(traffic),
            _ => empty_block(traffic),
        }
    }
}

/// A payment and entries come to stand in the oldest of eight states alone: 2 and 6 still see
/// them, 7 does not.
pub fn oldest_of_eight(traffic: &mut Traffic) {
    let room = traffic.entry_room();
    if traffic.rows_left() < 20 || room < 10 || !many_entries(traffic, room) {
        return;
    }
    let available = traffic.available();
    let leaving = traffic.chance.some(&available, 9);
    if leaving.len() < 9 {
        return;
    }
    let coin = traffic.wallet.present().utxo[&leaving[1]];
    let payment = shaped(traffic.fresh_number(), leaving[..1].to_vec(), Vec::new());
    traffic.pay(&payment);
    let spender = shaped(traffic.fresh_number(), leaving[1..].to_vec(), Vec::new());
    traffic.block(vec![payment.clone(), spender]);
    (0..6).for_each(|_| empty_block(traffic));

    let coin = Coin { amount: other_amount(coin.amount), ..coin };
    let outputs = vec![Output { index: leaving[1].index, coin }];
    let inputs = vec![traffic.foreign_input()];
    let other_maker = shaped(leaving[1].number, inputs.clone(), outputs);
    let other_payment = shaped(payment.number, inputs, Vec::new());
    let spent = traffic.some_available(1);
    let same_number = Transaction { number: payment.number, ..traffic.payment(&spent) };
    traffic.pay(&same_number);
    traffic.block(vec![other_payment.clone()]);
    traffic.block(vec![other_maker.clone()]);
    let room = traffic.entry_room();
    many_entries(traffic, room + 1);
    many_entries(traffic, room.saturating_sub(1));
    // The oldest is gone, and with it the refusals.
    traffic.pay(&same_number);
    traffic.block(vec![other_maker]);
}

pub fn amounts_at_limit(traffic: &mut Traffic) {
    let amounts = [AMOUNT_LIMIT, AMOUNT_LIMIT - 1, 0, AMOUNT_LIMIT, 1];
    let mut coins = Vec::new();
    for amount in amounts {
        coins.push(Coin { address: traffic.own_address(), amount });
    }
    let rich = traffic.chain_transaction(&[], &coins);
    let made: Vec<Reference> = rich.made().map(|(reference, _)| reference).collect();
    if traffic.block(vec![rich]) {
        let payment = payment_with_change(traffic, &made[..1]);
        traffic.pay(&payment);
        let payment = traffic.payment(&made[1..]);
        traffic.pay(&payment);
    }
}
