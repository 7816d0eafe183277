//! Faults put into a feed: in one body, so that the rest stays well formed, or in head, table or
//! own list, so that the whole feed has to be refused.

use crate::chain::*;
use crate::chance::Chance;
use crate::draft::*;
use crate::feed::{self, Body, Kind, HEAD_SIZE, ROW_LIMIT, ROW_SIZE};

type BodyFault = fn(&mut Chance, &mut DraftRow);
type FeedFault = fn(&mut Chance, &Draft) -> Vec<u8>;

const BODY_FAULTS: [BodyFault; 14] = [
    flipped_bit,
    cut_body,
    left_over,
    transaction_count,
    input_count,
    output_count,
    inputs_exchanged,
    input_repeated,
    outputs_exchanged,
    output_repeated,
    amount_over_limit,
    numbers_out_of_order,
    other_kind,
    emptied,
];

const FEED_FAULTS: [FeedFault; 17] = [
    cut_feed,
    bytes_after_feed,
    other_version,
    other_row_count,
    other_offset,
    other_length,
    unknown_kind,
    own_in_later_row,
    first_not_own,
    zero_byte_set,
    bodies_exchanged,
    own_out_of_order,
    own_too_many,
    own_cut_or_longer,
    rows_too_many,
    flipped_anywhere,
    noise,
];

/// Two of three damaged feeds have faults in bodies only; the faults of whole feeds take turns.
pub fn damaged(chance: &mut Chance, draft: &Draft, turn: usize) -> Vec<u8> {
    if turn % 3 == 2 {
        return FEED_FAULTS[turn / 3 % FEED_FAULTS.len()](chance, draft);
    }
    let mut draft = draft.clone();
    for _ in 0..chance.between(1, 4) {
        let fault = BODY_FAULTS[chance.below(BODY_FAULTS.len())];
        if let Some(at) = later_row(chance, &draft) {
            fault(chance, &mut draft.rows[at]);
        }
    }
    draft.bytes()
}

/// A row after the first: mostly a block or a payment.
fn later_row(chance: &mut Chance, draft: &Draft) -> Option<usize> {
    let with_body: Vec<usize> =
        (1..draft.rows.len()).filter(|at| !draft.rows[*at].body.is_empty()).collect();
    if draft.rows.len() > 1 && (with_body.is_empty() || chance.one_in(8)) {
        return Some(chance.between(1, draft.rows.len() - 1));
    }
    chance.pick(&with_body)
}

/// Rewrites a block or payment after its transactions were altered.
fn altered(row: &mut DraftRow, alter: impl FnOnce(&mut Vec<Transaction>)) {
    let kind = if row.kind == BLOCK { Kind::Block } else { Kind::Payment };
    match feed::read_body(kind, &row.body) {
        Ok(Body::Block(mut block)) => {
            alter(&mut block);
            row.body = block_body(&block);
        }
        Ok(Body::Payment(payment)) => {
            let mut single = vec![payment];
            alter(&mut single);
            row.body = single.iter().flat_map(payment_body).collect();
        }
        _ => {}
    }
}

fn altered_one(chance: &mut Chance, row: &mut DraftRow, alter: impl FnOnce(&mut Transaction)) {
    altered(row, |transactions| {
        if !transactions.is_empty() {
            let at = chance.below(transactions.len());
            alter(&mut transactions[at]);
        }
    });
}

fn flipped_bit(chance: &mut Chance, row: &mut DraftRow) {
    if !row.body.is_empty() {
        let at = chance.below(row.body.len());
        row.body[at] ^= 1 << chance.below(8);
    }
}

fn cut_body(chance: &mut Chance, row: &mut DraftRow) {
    let length = chance.below(row.body.len() + 1);
    row.body.truncate(length);
}

fn left_over(chance: &mut Chance, row: &mut DraftRow) {
    for _ in 0..chance.between(1, 12) {
        row.body.push(chance.next() as u8 & 3);
    }
}

fn transaction_count(chance: &mut Chance, row: &mut DraftRow) {
    if let Some(count) = row.body.first_mut() {
        *count = [count.wrapping_add(1), count.wrapping_sub(1), 17, 16, 255][chance.below(5)];
    }
}

/// Where the first transaction's counts stand in a body.
fn counts_place(row: &DraftRow) -> usize {
    if row.kind == BLOCK {
        9
    } else {
        8
    }
}

fn input_count(chance: &mut Chance, row: &mut DraftRow) {
    let place = counts_place(row);
    if let Some(count) = row.body.get_mut(place) {
        *count = [0, 9, count.wrapping_add(1), count.wrapping_sub(1), 255][chance.below(5)];
    }
}

fn output_count(chance: &mut Chance, row: &mut DraftRow) {
    let place = counts_place(row) + 1;
    if let Some(count) = row.body.get_mut(place) {
        *count = [9, count.wrapping_add(1), count.wrapping_sub(1), 255][chance.below(4)];
    }
}

fn inputs_exchanged(chance: &mut Chance, row: &mut DraftRow) {
    let higher = chance.one_in(2);
    altered_one(chance, row, |transaction| {
        let mut second = transaction.inputs[0];
        second.index = second.index.wrapping_add(1);
        if higher {
            second.number = second.number.wrapping_sub(1);
        }
        transaction.inputs.truncate(7);
        transaction.inputs.insert(1, second);
        transaction.inputs.swap(0, 1);
    });
}

fn input_repeated(chance: &mut Chance, row: &mut DraftRow) {
    altered_one(chance, row, |transaction| {
        transaction.inputs.truncate(7);
        transaction.inputs.insert(0, transaction.inputs[0]);
    });
}

fn outputs_exchanged(chance: &mut Chance, row: &mut DraftRow) {
    altered_one(chance, row, |transaction| transaction.outputs.reverse());
}

fn output_repeated(chance: &mut Chance, row: &mut DraftRow) {
    altered_one(chance, row, |transaction| {
        transaction.outputs.truncate(7);
        if let Some(last) = transaction.outputs.last().copied() {
            transaction.outputs.push(last);
        }
    });
}

fn amount_over_limit(chance: &mut Chance, row: &mut DraftRow) {
    let amount = [AMOUNT_LIMIT + 1, u64::MAX, AMOUNT_LIMIT * 2][chance.below(3)];
    altered_one(chance, row, |transaction| {
        if let Some(output) = transaction.outputs.last_mut() {
            output.coin.amount = amount;
        }
    });
}

fn numbers_out_of_order(chance: &mut Chance, row: &mut DraftRow) {
    let repeated = chance.one_in(2);
    altered(row, |transactions| {
        if repeated {
            transactions.extend(transactions.last().cloned());
        } else {
            transactions.reverse();
        }
    });
}

/// The body is read by another kind's rule.
fn other_kind(chance: &mut Chance, row: &mut DraftRow) {
    let kinds = [BLOCK, PAYMENT, ROLLBACK];
    row.kind = kinds[chance.below(3)];
}

fn emptied(_: &mut Chance, row: &mut DraftRow) {
    row.body.clear();
}

fn cut_feed(chance: &mut Chance, draft: &Draft) -> Vec<u8> {
    let mut feed = draft.bytes();
    let length = if chance.one_in(3) { chance.below(20) } else { chance.below(feed.len()) };
    feed.truncate(length);
    feed
}

fn bytes_after_feed(chance: &mut Chance, draft: &Draft) -> Vec<u8> {
    let mut feed = draft.bytes();
    feed.resize(feed.len() + chance.between(1, 9), 0);
    feed
}

fn other_version(chance: &mut Chance, draft: &Draft) -> Vec<u8> {
    let mut feed = draft.bytes();
    let version: u16 = [0, 2, 256, 257, u16::MAX][chance.below(5)];
    feed[..2].copy_from_slice(&version.to_le_bytes());
    feed
}

fn other_row_count(chance: &mut Chance, draft: &Draft) -> Vec<u8> {
    let mut feed = draft.bytes();
    let rows = draft.rows.len() as u16;
    let count = [0, rows + 1, rows - 1, 257, u16::MAX][chance.below(5)];
    feed[2..4].copy_from_slice(&count.to_le_bytes());
    feed
}

/// The table's entry of a random row.
fn some_entry(chance: &mut Chance, draft: &Draft) -> usize {
    HEAD_SIZE + ROW_SIZE * chance.below(draft.rows.len())
}

fn other_offset(chance: &mut Chance, draft: &Draft) -> Vec<u8> {
    let mut feed = draft.bytes();
    let place = some_entry(chance, draft) + 4;
    let by = [1, u8::MAX, 4, 128][chance.below(4)];
    let byte = place + [0, 0, 0, 1, 2, 3][chance.below(6)];
    feed[byte] = feed[byte].wrapping_add(by);
    feed
}

fn other_length(chance: &mut Chance, draft: &Draft) -> Vec<u8> {
    let mut feed = draft.bytes();
    let place = some_entry(chance, draft) + 2 + chance.below(2);
    feed[place] = feed[place].wrapping_add([1, u8::MAX, 10][chance.below(3)]);
    feed
}

fn unknown_kind(chance: &mut Chance, draft: &Draft) -> Vec<u8> {
    let mut draft = draft.clone();
    let at = chance.below(draft.rows.len());
    draft.rows[at].kind = [0, 5, 6, 255][chance.below(4)];
    draft.bytes()
}

fn own_in_later_row(chance: &mut Chance, draft: &Draft) -> Vec<u8> {
    let mut draft = draft.clone();
    let place = chance.between(1, draft.rows.len());
    draft.rows.truncate(ROW_LIMIT - 1);
    draft.rows.insert(place.min(draft.rows.len()), draft.rows[0].clone());
    draft.bytes()
}

fn first_not_own(chance: &mut Chance, draft: &Draft) -> Vec<u8> {
    let mut draft = draft.clone();
    if chance.one_in(2) && draft.rows.len() > 1 {
        draft.rows.remove(0);
    } else {
        draft.rows[0].kind = BLOCK;
    }
    draft.bytes()
}

fn zero_byte_set(chance: &mut Chance, draft: &Draft) -> Vec<u8> {
    let mut feed = draft.bytes();
    let place = some_entry(chance, draft) + 1;
    feed[place] = 1 << chance.below(8);
    feed
}

/// The table names the bodies in another order than they stand.
fn bodies_exchanged(chance: &mut Chance, draft: &Draft) -> Vec<u8> {
    let mut feed = draft.bytes();
    let (one, other) = (some_entry(chance, draft), some_entry(chance, draft));
    for byte in 2..ROW_SIZE {
        feed.swap(one + byte, other + byte);
    }
    feed
}

fn own_out_of_order(chance: &mut Chance, draft: &Draft) -> Vec<u8> {
    let mut draft = draft.clone();
    let orders: [&[u32]; 4] = [&[5, 5], &[6, 5], &[1, 2, 2], &[0, 300, 299, 400]];
    draft.rows[0].body = own_body(orders[chance.below(4)]);
    draft.bytes()
}

fn own_too_many(chance: &mut Chance, draft: &Draft) -> Vec<u8> {
    let mut draft = draft.clone();
    let count = [33, 34, 255][chance.below(3)];
    draft.rows[0].body = own_body(&(0..count).collect::<Vec<u32>>());
    draft.bytes()
}

fn own_cut_or_longer(chance: &mut Chance, draft: &Draft) -> Vec<u8> {
    let mut draft = draft.clone();
    if chance.one_in(2) {
        left_over(chance, &mut draft.rows[0]);
    } else {
        draft.rows[0].body.pop();
    }
    draft.bytes()
}

fn rows_too_many(chance: &mut Chance, draft: &Draft) -> Vec<u8> {
    let mut draft = draft.clone();
    let rows = ROW_LIMIT + chance.between(1, 2);
    while draft.rows.len() < rows {
        draft.push(ROLLBACK, Vec::new());
    }
    draft.bytes()
}

fn flipped_anywhere(chance: &mut Chance, draft: &Draft) -> Vec<u8> {
    let mut feed = draft.bytes();
    for _ in 0..chance.between(1, 3) {
        let place = chance.below(feed.len());
        feed[place] = feed[place].wrapping_add(chance.between(1, 255) as u8);
    }
    feed
}

fn noise(chance: &mut Chance, _: &Draft) -> Vec<u8> {
    (0..chance.below(300)).map(|_| chance.next() as u8).collect()
}
