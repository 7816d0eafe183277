//! Events that the wallet has to refuse.

use super::everyday::stocked;
use crate::chain::*;
use crate::traffic::{shaped, Traffic};

/// A payment with a number that something in a held state has.
pub fn number_taken(traffic: &mut Traffic) {
    let mut numbers: Vec<u64> = traffic.held_pending().iter().map(|old| old.number).collect();
    numbers.extend(traffic.gone_entries().iter().map(|(reference, _)| reference.number));
    numbers.extend(traffic.wallet.present().utxo.keys().map(|reference| reference.number));
    let spent = traffic.some_available(2);
    if let Some(number) = traffic.chance.pick(&numbers) {
        let spent = if spent.is_empty() { vec![traffic.foreign_input()] } else { spent };
        let mut payment = traffic.payment(&spent);
        payment.number = number;
        traffic.pay(&payment);
    }
}

/// A payment with an input that is unknown, spent, expected or taken by another payment.
pub fn not_available(traffic: &mut Traffic) {
    let mut inputs: Vec<Reference> =
        traffic.gone_entries().iter().map(|(reference, _)| *reference).collect();
    inputs.extend(traffic.wallet.present().pending_inputs());
    inputs.push(traffic.foreign_input());
    let mut spent = traffic.some_available(2);
    spent.extend(traffic.chance.some(&inputs, 1));
    let payment = traffic.payment(&spent);
    traffic.pay(&payment);
}

/// Outputs of one lovelace or more over the inputs.
pub fn pays_too_much(traffic: &mut Traffic) {
    if !stocked(traffic, 1) {
        return;
    }
    let spent = traffic.some_available(2);
    let surplus = if traffic.chance.one_in(2) { 1 } else { traffic.chance.amount_up_to(50) };
    let mut rest = traffic.paid_in(&spent) + surplus;
    let mut coins = Vec::new();
    while rest > 0 && coins.len() < OUTPUT_LIMIT {
        let amount = rest.min(AMOUNT_LIMIT);
        rest -= amount;
        coins.push(Coin { address: traffic.address(), amount });
    }
    let (number, outputs) = (traffic.fresh_number(), traffic.outputs(&coins));
    traffic.pay(&shaped(number, spent, outputs));
}

/// An output at a reference of the present UTxO: the same, another, or spent by the block itself.
pub fn stands_already(traffic: &mut Traffic) {
    let utxo: Vec<(Reference, Coin)> =
        traffic.wallet.present().utxo.iter().map(|(at, coin)| (*at, *coin)).collect();
    if let Some((reference, coin)) = traffic.chance.pick(&utxo) {
        let coin = if traffic.chance.one_in(2) { coin } else { traffic.coins(1)[0] };
        let input = if traffic.chance.one_in(3) { reference } else { traffic.foreign_input() };
        let outputs = vec![Output { index: reference.index, coin }];
        let mut block = vec![shaped(reference.number, vec![input], outputs)];
        if traffic.chance.one_in(3) {
            // Both 5 and 6 apply, and 5 comes first over the whole block.
            block.extend(contradicting(traffic));
        }
        traffic.block(block);
    }
}

pub fn other_amount(amount: u64) -> u64 {
    if amount == 0 {
        1
    } else {
        amount - 1
    }
}

/// A transaction that makes a held reference with another address or amount.
fn contradicting(traffic: &mut Traffic) -> Option<Transaction> {
    let gone = traffic.gone_entries();
    let (reference, mut coin) = traffic.chance.pick(&gone)?;
    match traffic.chance.below(3) {
        0 => coin.address = traffic.foreign_address(),
        1 => coin.address ^= 1,
        _ => coin.amount = other_amount(coin.amount),
    }
    let inputs = vec![traffic.foreign_input()];
    Some(shaped(reference.number, inputs, vec![Output { index: reference.index, coin }]))
}

pub fn other_coin(traffic: &mut Traffic) {
    if let Some(transaction) = contradicting(traffic) {
        traffic.block(vec![transaction]);
    }
}

/// A transaction with a pending payment's number, but other inputs or outputs.
pub fn other_payment(traffic: &mut Traffic) {
    let pending = traffic.held_pending();
    if let Some(mut payment) = traffic.chance.pick(&pending) {
        if traffic.chance.one_in(2) || payment.outputs.is_empty() {
            payment.inputs = vec![traffic.foreign_input()];
        } else {
            payment.outputs.pop();
        }
        traffic.block(vec![payment]);
    }
}
