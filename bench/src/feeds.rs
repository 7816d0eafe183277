//! The whole feeds whose sheets are worked out.

use crate::chain::*;
use crate::feed::ROW_LIMIT;
use crate::story::*;
use crate::wallet::references;
use crate::wallets::{self, amount, Kind};

pub fn all() -> Vec<(&'static str, Vec<u8>)> {
    vec![
        ("quiet", quiet()),
        ("busy", busy()),
        ("fork", with_sixteen_all_along(Kind::Tangled)),
        ("independent", with_sixteen_all_along(Kind::Independent)),
    ]
}

/// 255 events with one to three pending payments, a few coins and now and then a rollback.
fn quiet() -> Vec<u8> {
    let mut story = Story::opened();
    let coins: Vec<u64> = (0..8).map(amount).collect();
    let first = story.received(100, &coins);
    story.block(&[first]);
    for number in (1_000..).step_by(10) {
        while story.pending() < 3 && story.rows() < ROW_LIMIT {
            let payment = next_payment(&story, number + story.pending() as u64);
            story.pay(&payment);
        }
        // What is rolled back comes again in the block after.
        let mut confirmed: Vec<Transaction> = pending(&story);
        confirmed.truncate(if number % 20 == 0 { 2 } else { 1 });
        confirmed.push(story.received(number + 5, &[amount(number), amount(number + 1)]));
        let forked = number % 40 == 0;
        for event in 0..if forked { 3 } else { 1 } {
            if story.rows() == ROW_LIMIT {
                return story.bytes();
            }
            if event == 1 {
                story.back();
            } else {
                story.block(&confirmed);
            }
            assert!((1..=3).contains(&story.pending()));
        }
    }
    story.bytes()
}

fn pending(story: &Story) -> Vec<Transaction> {
    story.wallet.present().pending.iter().map(|payment| (**payment).clone()).collect()
}

/// Takes two available coins, pays a quarter to others and keeps the rest.
fn next_payment(story: &Story, number: u64) -> Transaction {
    let available = story.wallet.present().available();
    let inputs: Vec<Reference> = available.keys().take(2).copied().collect();
    let worth: u64 = inputs.iter().map(|input| available[input].amount).sum();
    transaction(number, &inputs, &[worth / 4], &[worth / 4 * 3])
}

const THREADS: u64 = 16;

/// Full blocks in which each coin is handed on, so that eight held states have 128 references; two
/// of the transactions are payments first; forks of one and two blocks.
fn busy() -> Vec<u8> {
    let mut story = Story::opened();
    let first: Vec<Transaction> = (0..THREADS)
        .map(|thread| story.received(handed_on(0, thread), &[1_000_000_000 + amount(thread)]))
        .collect();
    story.block(&first);
    let blocks: Vec<Vec<Transaction>> = (1..=34).map(|round| full_block(&story, round)).collect();
    for (round, block) in blocks.iter().enumerate() {
        story.pay_all(&block[..2]);
        story.block(block);
        if round % 3 == 2 {
            story.back();
            story.block(block);
        }
        if round % 8 == 7 {
            story.back();
            story.back();
            story.block(&blocks[round - 1]);
            story.block(block);
        }
    }
    assert_eq!(story.wallet.states.len(), HELD_LIMIT);
    assert_eq!(references(story.wallet.states.iter()).len(), ENTRY_LIMIT);
    story.bytes()
}

fn handed_on(round: u64, thread: u64) -> u64 {
    1_000 * (round + 1) + thread
}

fn full_block(story: &Story, round: u64) -> Vec<Transaction> {
    let first = |thread| {
        let reference = at(handed_on(0, thread), 0);
        story.wallet.present().utxo[&reference].amount
    };
    let handing = |thread| {
        // The first block's coins are their transactions' only outputs.
        let index = if round == 1 { 0 } else { 2 };
        let kept = first(thread) - round * 2_000;
        let input = at(handed_on(round - 1, thread), index);
        transaction(handed_on(round, thread), &[input], &[700, 300 + thread], &[kept])
    };
    (0..THREADS).map(handing).collect()
}

/// Sixteen payments stay pending while blocks that do not touch them come and are rolled back.
fn with_sixteen_all_along(kind: Kind) -> Vec<u8> {
    let mut story = wallets::told(kind, 16);
    let coin = story.received(9_000, &[amount(9_000)]);
    while story.rows() + 4 <= ROW_LIMIT {
        story.block(&[coin.clone()]);
        story.block(&[]);
        story.back();
        story.back();
    }
    story.bytes()
}
