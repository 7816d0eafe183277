//! Payments that hang together: by a shared input, or each on the change of the one before.

use super::everyday::{confirm, drive_out, plain_payment, stocked};
use super::forks::expected_made;
use crate::chain::*;
use crate::traffic::{shaped, Traffic};

/// The paper's way to two pending payments with a shared input.
pub fn shared_input(traffic: &mut Traffic) {
    if !stocked(traffic, 3) {
        return;
    }
    let available = traffic.available();
    let both = traffic.chance.some(&available, 2);
    let first = traffic.payment(&both);
    traffic.pay(&first);
    let count = traffic.chance.below(2);
    let coins = traffic.coins(count);
    let foreign = traffic.chain_transaction(&both[..1], &coins);
    traffic.block(vec![foreign]);
    // With an input of its own, the second payment would lower the minimum beside the first.
    let mut taken = both[1..].to_vec();
    if !traffic.chance.one_in(3) {
        taken.extend(traffic.some_available(1).iter().filter(|entry| **entry != both[1]));
    }
    let second = traffic.payment(&taken);
    traffic.pay(&second);
    traffic.back();
}

/// Three payments, of which the first shares an input with each of the others.
pub fn shared_input_twice(traffic: &mut Traffic) {
    if !stocked(traffic, 3) {
        return;
    }
    let available = traffic.available();
    let three = traffic.chance.some(&available, 3);
    let first = traffic.payment(&three);
    traffic.pay(&first);
    let foreign = traffic.chain_transaction(&three[..1], &[]);
    traffic.block(vec![foreign]);
    for entry in &three[1..] {
        let payment = traffic.payment(&[*entry]);
        traffic.pay(&payment);
    }
    traffic.back();
}

/// A payment whose output to an own address is nearly all that it takes.
pub fn payment_with_change(traffic: &mut Traffic, spent: &[Reference]) -> Transaction {
    let paid_in = traffic.paid_in(spent).min(AMOUNT_LIMIT);
    let paid = traffic.chance.amount_up_to(paid_in.min(40));
    let mut coins = vec![Coin { address: traffic.own_address(), amount: paid_in - paid }];
    if traffic.chance.one_in(2) {
        coins.push(Coin { address: traffic.foreign_address(), amount: paid });
    }
    let (number, outputs) = (traffic.fresh_number(), traffic.outputs(&coins));
    shaped(number, spent.to_vec(), outputs)
}

/// Payments, each on the change of the one before, confirmed one by one; rollbacks make them pend
/// together.
pub fn chain_of_payments(traffic: &mut Traffic) {
    if !stocked(traffic, 1) {
        return;
    }
    let mut spent = traffic.some_available(1);
    let length = traffic.chance.between(2, 4);
    for at in 1..=length {
        let payment = payment_with_change(traffic, &spent);
        if !traffic.pay(&payment) {
            return;
        }
        if at < length && !traffic.block(vec![payment.clone()]) {
            return;
        }
        let change = payment.made().find(|(_, coin)| traffic.wallet.own.contains(&coin.address));
        spent = change.map(|(reference, _)| reference).into_iter().collect();
    }
    for _ in 0..traffic.chance.between(1, length) {
        traffic.back();
    }
}

/// A chain whose first input is rolled back too, so that it stands on an expected entry.
pub fn chain_in_the_air(traffic: &mut Traffic) {
    if !stocked(traffic, 1) {
        return;
    }
    let coins = traffic.own_coins(3);
    let funding = traffic.chain_transaction(&[], &coins);
    let first = funding.made().map(|(reference, _)| reference).take(1).collect::<Vec<_>>();
    if !traffic.block(vec![funding]) {
        return;
    }
    let payment = payment_with_change(traffic, &first);
    traffic.pay(&payment);
    traffic.block(vec![payment.clone()]);
    let change: Vec<Reference> = payment.made().map(|(reference, _)| reference).take(1).collect();
    let second = payment_with_change(traffic, &change);
    traffic.pay(&second);
    traffic.back();
    traffic.back();
    if traffic.chance.one_in(2) {
        expected_made(traffic);
    }
}

/// Payments between rollbacks, so that the present state collects many of them.
pub fn crowded_rollbacks(traffic: &mut Traffic) {
    for _ in 0..4 {
        plain_payment(traffic);
        confirm(traffic);
        plain_payment(traffic);
        drive_out(traffic);
    }
    for _ in 0..6 {
        traffic.back();
        if traffic.chance.one_in(3) {
            plain_payment(traffic);
        }
    }
}
