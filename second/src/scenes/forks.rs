//! Forks: other blocks after a rollback, and what was expected made or spent after all.

use super::everyday::{confirm, empty_block, income, made_and_spent, some_rollbacks, stocked};
use super::Scene;
use crate::chain::*;
use crate::traffic::{shaped, Traffic};

/// Some blocks back, then other blocks.
pub fn fork(traffic: &mut Traffic) {
    some_rollbacks(traffic);
    for _ in 0..traffic.chance.between(1, 3) {
        let scenes: [Scene; 5] = [income, confirm, expected_made, made_and_spent, empty_block];
        let scene = scenes[traffic.chance.below(scenes.len())];
        scene(traffic);
    }
}

/// A block makes some expected references again, as after a fork that has the same transactions.
pub fn expected_made(traffic: &mut Traffic) {
    let expected: Vec<(Reference, Coin)> =
        traffic.wallet.present().expected.iter().map(|(at, coin)| (*at, *coin)).collect();
    let number = match traffic.chance.pick(&expected) {
        Some((reference, _)) => reference.number,
        None => return,
    };
    // A pending payment has to come as it is; other transactions may come with other inputs.
    let pending = traffic.held_pending();
    if let Some(payment) = pending.into_iter().find(|payment| payment.number == number) {
        traffic.block(vec![payment]);
        return;
    }
    let same = expected.iter().filter(|(reference, _)| reference.number == number);
    let made = same.map(|(reference, coin)| Output { index: reference.index, coin: *coin });
    let outputs: Vec<Output> = made.take(OUTPUT_LIMIT).collect();
    let first = Reference { number, index: outputs[0].index };
    let inputs = vec![traffic.foreign_input()];
    let mut block = vec![shaped(number, inputs, outputs)];
    if traffic.chance.one_in(4) {
        let coins = traffic.coins(1);
        block.push(traffic.chain_transaction(&[first], &coins));
    }
    traffic.block(block);
}

/// A block spends an expected reference without making it.
pub fn expected_spent(traffic: &mut Traffic) {
    let expected: Vec<Reference> = traffic.wallet.present().expected.keys().copied().collect();
    let spent = traffic.chance.some(&expected, 1);
    if !spent.is_empty() {
        let coins = traffic.coins(1);
        let foreign = traffic.chain_transaction(&spent, &coins);
        traffic.block(vec![foreign]);
    }
}

/// One block spends an entry, the next makes it again; two rollbacks bring it into expected and
/// out of it.
pub fn made_again(traffic: &mut Traffic) {
    if !stocked(traffic, 1) {
        return;
    }
    let spent = traffic.some_available(1);
    let coin = traffic.wallet.present().utxo[&spent[0]];
    let spender = traffic.chain_transaction(&spent, &[]);
    if !traffic.block(vec![spender]) {
        return;
    }
    let inputs = vec![traffic.foreign_input()];
    let outputs = vec![Output { index: spent[0].index, coin }];
    traffic.block(vec![shaped(spent[0].number, inputs, outputs)]);
    for _ in 0..traffic.chance.below(4) {
        traffic.back();
    }
}
